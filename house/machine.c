/* The text of the machine that some processors are, as Linux describes it below /sys/devices/system/cpu. It is the text
 * that tools/this-machine prints, which needs no compiler. tests/lscpu has texts that both must make. */
#include "house.h"

#include <fcntl.h>
#include <stdio.h>
#include <sys/syscall.h>

enum { NUMBERS = 1024, SOCKETS = 8, PATH = 256 };

/* A processor that the process may use: a hardware thread. */
typedef struct processor {
    int socket, core; /* the socket by its place in the text; the core by its first hardware thread */
    bool first;       /* of its core, among those that the process may use */
} processor_t;

typedef struct units {
    processor_t processors[NUMBERS];
    uint16_t order[NUMBERS]; /* the processors by socket and number */
    uint32_t count;
    int packages[SOCKETS];   /* what the system calls each socket */
    int sockets;
} units_t;

bool voldazpe_house_processors(unsigned char *processors, size_t bytes) {
    /* not by the C library, which needs to know beforehand how many the kernel has */
    return syscall(SYS_sched_getaffinity, 0, bytes, processors) > 0;
}

/* The first number in a file of a processor, or `otherwise` if there is none. */
static int read_number(const char *root, int processor, const char *name, int otherwise) {
    char path[PATH], text[32];
    if (snprintf(path, sizeof path, "%s/cpu%d/topology/%s", root, processor, name) >= PATH) return otherwise;
    int file = open(path, O_RDONLY | O_CLOEXEC), number = otherwise;
    if (file < 0) return otherwise;
    ssize_t length = read(file, text, sizeof text - 1);
    (void)close(file);
    if (length > 0 && text[0] >= '0' && text[0] <= '9') {
        text[length] = 0;
        number = atoi(text);
    }
    return number;
}

static bool comes_before(const units_t *units, int left, int right) {
    const processor_t *one = &units->processors[left], *other = &units->processors[right];
    return one->socket < other->socket || (one->socket == other->socket && left < right);
}

/* The socket that the system calls by a number, or -1 past the most sockets. Sockets are in the order of their least
 * processor. */
static int socket_of(units_t *units, int package) {
    for (int socket = 0; socket < units->sockets; socket++) {
        if (units->packages[socket] == package) return socket;
    }
    if (units->sockets == SOCKETS) return -1;
    units->packages[units->sockets] = package;
    return units->sockets++;
}

static void read_processors(const char *root, const unsigned char *processors, size_t bytes, units_t *units) {
    bool seen[NUMBERS] = {false};
    memset(units, 0, sizeof *units);
    for (int number = 0; number < NUMBERS && (size_t)number / 8 < bytes; number++) {
        if (!(processors[number / 8] >> (number % 8) & 1)) continue;
        processor_t *one = &units->processors[number];
        one->socket = socket_of(units, read_number(root, number, "physical_package_id", 0));
        if (one->socket < 0) continue;
        one->core = read_number(root, number, "thread_siblings_list", number);
        if (one->core >= NUMBERS) one->core = number;
        one->first = !seen[one->core];
        seen[one->core] = true;
        uint32_t at = units->count++;
        for (; at > 0 && comes_before(units, number, units->order[at - 1]); at--) {
            units->order[at] = units->order[at - 1];
        }
        units->order[at] = (uint16_t)number;
    }
}

/* What becomes of each processor: managed, unmanaged, or left out. */
typedef enum { LEFT_OUT, MANAGED, UNMANAGED } use_t;

/* Of each core the first hardware thread is named. The first cores of the first socket stay unmanaged, and so do cores
 * past the most managed ones. At least one core is managed. If there is only one core, its hardware threads count as
 * cores. */
static void decide(const units_t *units, uint32_t unmanaged, use_t *uses) {
    uint32_t cores = 0, kept = 0, managed = 0;
    for (uint32_t i = 0; i < units->count; i++) cores += units->processors[units->order[i]].first;
    bool threads = cores == 1;
    if (threads) cores = units->count;
    if (unmanaged >= cores) unmanaged = cores - 1;
    for (uint32_t i = 0; i < units->count; i++) {
        const processor_t *one = &units->processors[units->order[i]];
        if (!one->first && !threads) continue;
        bool keeps = one->socket == 0 && kept < unmanaged;
        use_t use = keeps || managed == VOLDAZPE_CORES ? UNMANAGED : MANAGED;
        kept += keeps;
        managed += use == MANAGED;
        uses[units->order[i]] = use;
    }
}

/* Adds a list of the processors of a socket that have a use. False if it doesn't fit. */
static bool add_list(const units_t *units, const use_t *uses, int socket, use_t use, char *text, size_t size,
                     size_t *used) {
    static const char *const keys[] = {"", "managed = [", "unmanaged = ["};
    int length = snprintf(text + *used, size - *used, "%s", keys[use]);
    const char *between = "";
    for (uint32_t i = 0; i < units->count && length >= 0 && (size_t)length < size - *used; i++) {
        int number = units->order[i];
        if (units->processors[number].socket != socket || uses[number] != use) continue;
        *used += (size_t)length;
        length = snprintf(text + *used, size - *used, "%s%d", between, number);
        between = ", ";
    }
    if (length < 0 || (size_t)length + 3 > size - *used) return false;
    *used += (size_t)length;
    memcpy(text + *used, "]\n", 3);
    *used += 2;
    return true;
}

static bool add_socket(const units_t *units, const use_t *uses, int socket, char *text, size_t size, size_t *used) {
    int length = snprintf(text + *used, size - *used, "%s[[socket]]\n", *used > 0 ? "\n" : "");
    if (length < 0 || (size_t)length >= size - *used) return false;
    *used += (size_t)length;
    return add_list(units, uses, socket, MANAGED, text, size, used) &&
           add_list(units, uses, socket, UNMANAGED, text, size, used);
}

size_t voldazpe_house_describe(const char *root, const unsigned char *processors, size_t bytes, uint32_t unmanaged,
                               char *text, size_t size) {
    static const char alone[] = "[[socket]]\nmanaged = [%d]\nunmanaged = [%d]\n";
    use_t uses[NUMBERS] = {LEFT_OUT};
    size_t used = 0;
    units_t *units = malloc(sizeof *units);
    if (!units) return 0;
    read_processors(root, processors, bytes, units);
    if (units->count == 1) { /* the text needs an unmanaged number; no thread is ever pinned to this one */
        int length = snprintf(text, size, alone, units->order[0], units->order[0] == 0);
        used = length > 0 && (size_t)length < size ? (size_t)length : 0;
    } else if (units->count > 1) {
        decide(units, unmanaged, uses);
        for (int socket = 0; socket < units->sockets; socket++) {
            if (!add_socket(units, uses, socket, text, size, &used)) {
                used = 0;
                break;
            }
        }
    }
    free(units);
    return used;
}
