/* The text of a machine: for processors as folders describe them, and for this process. machine FOLDER LSCPU: an empty folder,
 * and
 * tests/lscpu, with the texts that tools/this-machine must print too */
#include "../../house/house.h"
#include "check.h"

#include <dirent.h>
#include <sys/stat.h>

static char root[400];
static char text[32768];

static void write_file(int processor, const char *name, const char *content) {
    char path[512];
    snprintf(path, sizeof path, "%s/cpu%d", root, processor);
    (void)mkdir(path, 0777);
    snprintf(path, sizeof path, "%s/cpu%d/topology", root, processor);
    (void)mkdir(path, 0777);
    snprintf(path, sizeof path, "%s/cpu%d/topology/%s", root, processor, name);
    FILE *file = fopen(path, "w");
    CHECK(file && fputs(content, file) >= 0 && fclose(file) == 0);
}

/* `threads` hardware threads of each core, numbered as Linux does: the first of all cores, then the second */
static void describe_processors(int sockets, int cores, int threads) {
    for (int thread = 0; thread < threads; thread++) {
        for (int core = 0; core < sockets * cores; core++) {
            char list[64], socket[16];
            snprintf(socket, sizeof socket, "%d\n", core / cores);
            snprintf(list, sizeof list, threads > 1 ? "%d,%d\n" : "%d\n", core, core + sockets * cores);
            write_file(thread * sockets * cores + core, "physical_package_id", socket);
            write_file(thread * sockets * cores + core, "thread_siblings_list", list);
        }
    }
}

/* the text for processors in a list of ranges */
static const char *of(const char *list, uint32_t unmanaged) {
    unsigned char mask[256] = {0};
    int from, to, read;
    for (; sscanf(list, "%d-%d%n", &from, &to, &read) == 2; list += read) {
        for (int i = from; i <= to; i++) mask[i / 8] = (unsigned char)(mask[i / 8] | 1 << i % 8);
    }
    size_t length = voldazpe_house_describe(root, mask, sizeof mask, unmanaged, text, sizeof text);
    CHECK(length == 0 || strlen(text) == length);
    if (length == 0) return "none";
    voldazpe_arbiter_t arbiter = VOLDAZPE_INIT; /* which takes it */
    CHECK(voldazpe_open(&arbiter, text, length, NULL) == VOLDAZPE_OK);
    CHECK(voldazpe_close(&arbiter) == VOLDAZPE_OK);
    return text;
}

#define SAME(left, right)                                                                             \
    do {                                                                                              \
        const char *one = (left);                                                                     \
        if (strcmp(one, right) != 0) {                                                                \
            fprintf(stderr, "%s:%d:\n%s\nin place of\n%s\n", __FILE__, __LINE__, one, right);         \
            _exit(1);                                                                                 \
        }                                                                                             \
    } while (0)

/* ---- the table of tests/lscpu ---- */

enum { MOST_LISTED = 512 };
static struct listed {
    int processor, socket, core; /* below 0: not known */
} listed[MOST_LISTED];

/* a number and the comma behind it, or below 0 where there is none */
static int next_number(const char **at) {
    int number = **at >= '0' && **at <= '9' ? atoi(*at) : -1;
    *at += strcspn(*at, ",\n");
    *at += **at == ',';
    return number;
}

static int read_lscpu(const char *path) {
    char line[200];
    int count = 0;
    FILE *file = fopen(path, "r");
    CHECK(file);
    while (fgets(line, sizeof line, file)) {
        const char *at = line;
        if (*line == '#') continue;
        CHECK(count < MOST_LISTED);
        listed[count].processor = next_number(&at);
        listed[count].socket = next_number(&at);
        listed[count].core = next_number(&at);
        CHECK(listed[count++].processor >= 0);
    }
    fclose(file);
    return count;
}

/* Describes the processors as the system would: lscpu counts sockets in the order of their processors, and the system gives them
 * other numbers. */
static void describe_listed(int count) {
    for (int i = 0; i < count; i++) {
        char content[2000] = "";
        size_t length = 0;
        for (int other = 0; other < count && listed[i].core >= 0; other++) {
            if (listed[other].core != listed[i].core || listed[other].socket != listed[i].socket) continue;
            length += (size_t)snprintf(content + length, sizeof content - length, "%s%d", length > 0 ? "," : "",
                                       listed[other].processor);
            CHECK(length < sizeof content - 20);
        }
        if (length > 0) write_file(listed[i].processor, "thread_siblings_list", content);
        snprintf(content, sizeof content, "%d\n", 90 - listed[i].socket);
        if (listed[i].socket >= 0) write_file(listed[i].processor, "physical_package_id", content);
    }
}

/* A file NAME.UNMANAGED.toml of the table is the text of the processors that NAME.txt lists, as lscpu does. */
static void compare_with(const char *folder, const char *table, const char *file_name) {
    char expected[sizeof text], name[100], path[600];
    unsigned char mask[256] = {0};
    CHECK(sscanf(file_name, "%99[^.]", name) == 1);
    uint32_t unmanaged = (uint32_t)strtoul(file_name + strlen(name) + 1, NULL, 10);
    CHECK(unmanaged > 0 && snprintf(root, sizeof root, "%s/%s", folder, file_name) < (int)sizeof root);
    CHECK(mkdir(root, 0777) == 0);
    snprintf(path, sizeof path, "%s/%s.txt", table, name);
    int count = read_lscpu(path);
    describe_listed(count);
    for (int i = 0; i < count; i++) {
        mask[listed[i].processor / 8] = (unsigned char)(mask[listed[i].processor / 8] | 1 << listed[i].processor % 8);
    }
    snprintf(path, sizeof path, "%s/%s", table, file_name);
    FILE *file = fopen(path, "r");
    CHECK(file);
    expected[fread(expected, 1, sizeof expected - 1, file)] = 0;
    fclose(file);
    CHECK(voldazpe_house_describe(root, mask, sizeof mask, unmanaged, text, sizeof text) > 0);
    SAME(text, expected);
}

static void compare_with_all(const char *folder, const char *table) {
    int count = 0;
    DIR *files = opendir(table);
    CHECK(files);
    for (const struct dirent *file; (file = readdir(files));) {
        size_t length = strlen(file->d_name);
        if (length < 5 || strcmp(file->d_name + length - 5, ".toml") != 0) continue;
        compare_with(folder, table, file->d_name);
        count++;
    }
    CHECK(closedir(files) == 0 && count > 0);
}

static uint32_t managed_in(const char *described) {
    voldazpe_arbiter_t arbiter = VOLDAZPE_INIT;
    voldazpe_machine_t machine;
    CHECK(voldazpe_open(&arbiter, described, strlen(described), NULL) == VOLDAZPE_OK);
    CHECK(voldazpe_machine(&arbiter, &machine) == VOLDAZPE_OK && voldazpe_close(&arbiter) == VOLDAZPE_OK);
    return machine.managed;
}

int main(int count, char **words) {
    CHECK(count == 3);
    compare_with_all(words[1], words[2]);
    CHECK(snprintf(root, sizeof root, "%s", words[1]) < (int)sizeof root);
    /* nothing is told: each is a core of one socket */
    SAME(of("0-3", 1), "[[socket]]\nmanaged = [1, 2, 3]\nunmanaged = [0]\n");
    SAME(of("2-2 5-6", 1), "[[socket]]\nmanaged = [5, 6]\nunmanaged = [2]\n");
    SAME(of("0-3", 2), "[[socket]]\nmanaged = [2, 3]\nunmanaged = [0, 1]\n");
    SAME(of("0-3", 9), "[[socket]]\nmanaged = [3]\nunmanaged = [0, 1, 2]\n"); /* one at least is managed */
    SAME(of("0-0", 1), "[[socket]]\nmanaged = [0]\nunmanaged = [1]\n");
    SAME(of("7-7", 1), "[[socket]]\nmanaged = [7]\nunmanaged = [0]\n");
    SAME(of("", 1), "none");
    CHECK(managed_in(of("0-199", 1)) == 128); /* as many as may be, and the others unmanaged */

    /* two sockets of three cores with two threads each: 0 to 2 and 6 to 8, 3 to 5 and 9 to 11 */
    describe_processors(2, 3, 2);
    SAME(of("0-11", 1), "[[socket]]\nmanaged = [1, 2]\nunmanaged = [0]\n\n"
                        "[[socket]]\nmanaged = [3, 4, 5]\nunmanaged = []\n");
    SAME(of("0-11", 4), "[[socket]]\nmanaged = []\nunmanaged = [0, 1, 2]\n\n" /* of the first socket alone */
                        "[[socket]]\nmanaged = [3, 4, 5]\nunmanaged = []\n");
    SAME(of("6-9", 1), "[[socket]]\nmanaged = [7, 8]\nunmanaged = [6]\n\n[[socket]]\nmanaged = [9]\nunmanaged = []\n");
    SAME(of("1-1 7-8", 1), "[[socket]]\nmanaged = [8]\nunmanaged = [1]\n");
    SAME(of("4-4 10-10", 1), "[[socket]]\nmanaged = [10]\nunmanaged = [4]\n"); /* one core alone: its threads */
    SAME(of("3-4 9-10", 1), "[[socket]]\nmanaged = [4]\nunmanaged = [3]\n");
    SAME(of("3-4 9-10", 9), "[[socket]]\nmanaged = [4]\nunmanaged = [3]\n");

    /* nine sockets: the last is left out */
    describe_processors(9, 1, 1);
    SAME(of("8-8 1-1", 1), "[[socket]]\nmanaged = []\nunmanaged = [1]\n\n[[socket]]\nmanaged = [8]\nunmanaged = []\n");
    CHECK(managed_in(of("0-8", 1)) == 7);
    CHECK(managed_in(of("0-8", 8)) == 7); /* of the first socket, which has one */

    /* this process's own */
    cpu_set_t mine;
    voldazpe_house_t *house;
    CHECK(sched_getaffinity(0, sizeof mine, &mine) == 0);
    OK(voldazpe_house_open(NULL, 0, NULL, &house));
    voldazpe_house_owner_t owners[VOLDAZPE_CORES];
    size_t cores;
    OK(voldazpe_house_owners(house, owners, VOLDAZPE_CORES, &cores));
    CHECK(cores >= 1 && cores <= (size_t)CPU_COUNT(&mine) && (cores == 1 || cores < (size_t)CPU_COUNT(&mine)));
    for (size_t i = 0; i < cores; i++) CHECK(CPU_ISSET(owners[i].core, &mine));
    OK(voldazpe_house_close(house));
    const voldazpe_house_options_t options = {.grace = 777};
    OK(voldazpe_house_open(NULL, 0, &options, &house));
    CHECK(state_of(house).grace == 777);
    OK(voldazpe_house_close(house));
    /* where only one processor may be used, it is managed */
    cpu_set_t one;
    CPU_ZERO(&one);
    for (size_t i = 0; i < CPU_SETSIZE && CPU_COUNT(&one) == 0; i++) {
        if (CPU_ISSET(i, &mine)) CPU_SET(i, &one);
    }
    CHECK(sched_setaffinity(0, sizeof one, &one) == 0);
    OK(voldazpe_house_open(NULL, 0, NULL, &house));
    CHECK(state_of(house).managed == 1);
    voldazpe_house_application_t application;
    voldazpe_house_thread_t *me;
    OK(voldazpe_house_join(house, "alone", &application));
    OK(voldazpe_house_want(house, application, 0, 1));
    OK(voldazpe_house_register(house, application, &me));
    OK(voldazpe_house_wait(me, -1));
    CHECK(CPU_ISSET((size_t)voldazpe_house_core(me), &one) && voldazpe_house_affinity(house) == VOLDAZPE_OK);
    OK(voldazpe_house_want(house, application, 0, 0));
    UNTIL(!voldazpe_house_keep(me) && voldazpe_house_core(me) == -1); /* moved, by the house's thread beside it */
    OK(voldazpe_house_leave(me));
    OK(voldazpe_house_close(house));
    return 0;
}
