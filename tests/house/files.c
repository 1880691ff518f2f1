/* A journal's folder: existing files stay as they are, a write that fails is told, and nothing is written after it. Run
 * in an empty folder, and linked with --wrap=write --wrap=close. */
#include "check.h"

#include <fcntl.h>
#include <sys/stat.h>

static const char machine[] = "[[socket]]\nmanaged = [1, 2]\nunmanaged = [0]\n";
static voldazpe_house_application_t application;

/* ---- writes and closes that fail */

static VOLDAZPE_ATOMIC(long) writes_left = -1, closes_left = -1; /* until one fails; below 0: none does */
static VOLDAZPE_ATOMIC(uint32_t) failed;

ssize_t __real_write(int file, const void *bytes, size_t count);
ssize_t __wrap_write(int file, const void *bytes, size_t count);
int __real_close(int file);
int __wrap_close(int file);

static bool fails(VOLDAZPE_ATOMIC(long) *left) {
    if (VOLDAZPE_LOAD(left) < 0 || atomic_fetch_sub(left, 1) != 0) return false;
    atomic_fetch_add(&failed, 1);
    errno = ENOSPC;
    return true;
}

ssize_t __wrap_write(int file, const void *bytes, size_t count) {
    if (file > 2 && fails(&writes_left)) return -1;
    return __real_write(file, bytes, count);
}

int __wrap_close(int file) {
    int done = __real_close(file);
    return file > 2 && fails(&closes_left) ? -1 : done;
}

/* ---- what the house hands out, beside the folder */

static char texts[VOLDAZPE_HOUSE_REPLIES + 1][1 << 21];
static size_t lengths[VOLDAZPE_HOUSE_REPLIES + 1];

static void keep(void *unused, voldazpe_house_text_t text, const char *bytes, size_t length) {
    (void)unused;
    CHECK(lengths[text] + length <= sizeof texts[text]);
    memcpy(texts[text] + lengths[text], bytes, length);
    lengths[text] += length;
}

static const voldazpe_house_options_t options = {.unpinned = true, .grace = NEVER, .journal_folder = ".",
                                                 .journal = keep};

static voldazpe_house_code_t try_to_open(voldazpe_house_t **house) {
    memset(lengths, 0, sizeof lengths);
    return voldazpe_house_open(machine, strlen(machine), &options, house);
}

static bool is_there(const char *name) {
    struct stat it;
    return lstat(name, &it) == 0;
}

/* a file's bytes: how many there are */
static size_t read_file(const char *name, char *bytes, size_t room) {
    int file = open(name, O_RDONLY | O_CLOEXEC);
    CHECK(file >= 0);
    ssize_t count = read(file, bytes, room);
    CHECK(count >= 0 && __real_close(file) == 0);
    return (size_t)count;
}

/* ---- what is there stays */

/* The opening is refused, and makes no file. */
static void refused(const char *name) {
    voldazpe_house_t *house = NULL;
    CHECK(try_to_open(&house) == VOLDAZPE_HOUSE_JOURNAL_THERE && !house);
    CHECK(is_there("machine.toml") == (strcmp(name, "machine.toml") == 0));
    CHECK(is_there("00000000.script") == (strcmp(name, "00000000.script") == 0));
    CHECK(is_there("00000000.replies") == (strcmp(name, "00000000.replies") == 0));
}

static void nothing_is_replaced(void) {
    static const char *const names[] = {"machine.toml", "00000000.script", "00000000.replies"};
    char bytes[16];
    for (int i = 0; i < 3; i++) {
        int file = open(names[i], O_WRONLY | O_CREAT | O_EXCL | O_CLOEXEC, 0666);
        CHECK(file >= 0 && __real_write(file, "theirs", 6) == 6 && __real_close(file) == 0);
        refused(names[i]);
        CHECK(read_file(names[i], bytes, sizeof bytes) == 6 && memcmp(bytes, "theirs", 6) == 0);
        CHECK(unlink(names[i]) == 0);
        CHECK(symlink("elsewhere", names[i]) == 0);
        refused(names[i]);
        CHECK(!is_there("elsewhere") && unlink(names[i]) == 0);
        CHECK(mkfifo(names[i], 0600) == 0); /* no one reads it */
        refused(names[i]);
        CHECK(unlink(names[i]) == 0);
    }
}

/* a second house over the folder of one that is open, and one after its close */
static void one_house_a_folder(void) {
    voldazpe_house_t *house, *other = NULL;
    static char script[256];
    OK(try_to_open(&house));
    CHECK(try_to_open(&other) == VOLDAZPE_HOUSE_JOURNAL_THERE && !other);
    OK(voldazpe_house_join(house, "first", &application));
    OK(voldazpe_house_close(house));
    CHECK(try_to_open(&other) == VOLDAZPE_HOUSE_JOURNAL_THERE && !other);
    size_t count = read_file("00000000.script", script, sizeof script);
    CHECK(count == 15 && memcmp(script, "0.0 join\ncores\n", 15) == 0);
    remove_journal();
}

/* ---- what is missing is told */

/* Whether all pieces of a text, one after another, are a prefix of what was handed out. */
static bool is_prefix(voldazpe_house_text_t text, const char *ending) {
    static char bytes[sizeof texts[0]];
    size_t count = 0;
    for (uint32_t piece = 0;; piece++) {
        char name[32];
        (void)snprintf(name, sizeof name, "%08u.%s", piece, ending);
        if (!is_there(name)) break;
        count += read_file(name, bytes + count, sizeof bytes - count);
    }
    return count <= lengths[text] && memcmp(bytes, texts[text], count) == 0;
}

/* A house whose so-manieth write fails, or close. It gives many orders, or few, which are written at its close. */
static bool loses(uint64_t orders, VOLDAZPE_ATOMIC(long) *left, long which) {
    voldazpe_house_t *house;
    VOLDAZPE_STORE(&failed, 0);
    OK(try_to_open(&house));
    VOLDAZPE_STORE(left, which);
    OK(voldazpe_house_join(house, "orders", &application));
    for (uint64_t i = 0; i < orders; i++) OK(voldazpe_house_want(house, application, 0, i % 2 + 1));
    if (orders > 10000) { /* some were written by now */
        UNTIL(VOLDAZPE_LOAD(&failed) == 0 || state_of(house).journal_failed);
        CHECK(state_of(house).journal_failed == (VOLDAZPE_LOAD(&failed) > 0));
    }
    voldazpe_house_code_t code = voldazpe_house_close(house);
    VOLDAZPE_STORE(left, -1);
    bool lost = VOLDAZPE_LOAD(&failed) > 0;
    CHECK(code == (lost ? VOLDAZPE_HOUSE_JOURNAL : (uint32_t)VOLDAZPE_OK));
    CHECK(is_prefix(VOLDAZPE_HOUSE_SCRIPT, "script") && is_prefix(VOLDAZPE_HOUSE_REPLIES, "replies"));
    remove_journal();
    return lost;
}

static void each_write_fails(uint64_t orders, long least) {
    long count = 0;
    while (loses(orders, &writes_left, count)) count++;
    CHECK(count >= least); /* each of them, in turn */
}

int main(void) {
    voldazpe_house_t *house;
    remove_journal();
    nothing_is_replaced();
    one_house_a_folder();
    each_write_fails(1, 2);
    each_write_fails(20000, 4);
    for (long i = 0; i < 3; i++) CHECK(loses(1, &closes_left, i)); /* three files */
    CHECK(!loses(1, &closes_left, 3));
    VOLDAZPE_STORE(&writes_left, 0); /* the machine's text */
    CHECK(try_to_open(&house) == VOLDAZPE_HOUSE_JOURNAL);
    VOLDAZPE_STORE(&writes_left, -1);
    CHECK(!is_there("machine.toml") && !is_there("00000000.script") && !is_there("00000000.replies"));
    return 0;
}
