/* The journal: the machine, the orders as a script, and the replies as `arbiter live` prints them. Script and replies
 * come in pieces, each pair a text of its own: piece N of the replies answers the lines of piece N of the script. What
 * happens is noted as records, under the lock. The house's own thread makes texts of them, without the lock. */
#include "house.h"

#include <errno.h>
#include <fcntl.h>
#include <stdio.h>

#ifndef VOLDAZPE_HOUSE_PIECE
#define VOLDAZPE_HOUSE_PIECE 16777216 /* the most bytes of a piece; tests make them smaller */
#endif

enum {
    RECORDS = 8192, /* of a buffer */
    CHUNK = 65536,
    LINE_BYTES = 192, /* the most bytes of a line, in either text */
    NAME = 4096,
    TEXTS = VOLDAZPE_HOUSE_REPLIES + 1
};

typedef struct record {
    voldazpe_order_t order;
    voldazpe_reply_t reply;
    uint32_t client;
} record_t;

typedef struct buffer {
    uint32_t count;
    record_t records[RECORDS];
} buffer_t;

typedef struct chunk {
    size_t used;
    char bytes[CHUNK];
} chunk_t;

struct journal {
    buffer_t *front, *back;  /* the front is written to under the lock */
    /* of the house's own thread */
    char *folder;
    uint32_t piece;          /* the number of the present one */
    int files[TEXTS];        /* of the present piece, or -1 */
    bool made[TEXTS];        /* which files this house has made */
    size_t lengths[TEXTS];   /* bytes of the present piece */
    chunk_t chunks[TEXTS];   /* the machine's isn't used */
    VOLDAZPE_ATOMIC(bool) failed;
};

/* ---- files ---- */

static void close_files(journal_t *journal) {
    for (int text = 0; text < TEXTS; text++) {
        if (journal->files[text] >= 0 && close(journal->files[text]) != 0) VOLDAZPE_STORE(&journal->failed, true);
        journal->files[text] = -1;
    }
}

/* Writes no more into the folder from now on: nothing may follow what is missing. */
static void give_up(journal_t *journal) {
    VOLDAZPE_STORE(&journal->failed, true);
    close_files(journal);
}

/* The path of a text's file for the present piece. False if it is too long. */
static bool path_of(const journal_t *journal, int text, char *path) {
    static const char *const endings[] = {"", "script", "replies"};
    int length = text == VOLDAZPE_HOUSE_MACHINE
                     ? snprintf(path, NAME, "%s/machine.toml", journal->folder)
                     : snprintf(path, NAME, "%s/%08u.%s", journal->folder, journal->piece, endings[text]);
    return length < NAME;
}

/* Makes a text's file, which must not exist yet, and follows no link. Returns 0, or an errno. */
static int make_file(journal_t *journal, int text) {
    char path[NAME];
    if (!path_of(journal, text, path)) return ENAMETOOLONG;
    journal->files[text] = open(path, O_WRONLY | O_CREAT | O_EXCL | O_NOFOLLOW | O_CLOEXEC, 0666);
    if (journal->files[text] < 0) return errno;
    journal->made[text] = true;
    return 0;
}

/* Removes the files that a failed opening made. */
static void remove_files(const journal_t *journal) {
    char path[NAME];
    for (int text = 0; text < TEXTS; text++) {
        if (journal->made[text] && path_of(journal, text, path)) (void)unlink(path);
    }
}

static void write_file(journal_t *journal, voldazpe_house_text_t text, const char *bytes, size_t length) {
    while (length > 0) {
        ssize_t written = write(journal->files[text], bytes, length);
        if (written < 0 && errno == EINTR) continue;
        if (written <= 0) {
            give_up(journal);
            return;
        }
        bytes += written;
        length -= (size_t)written;
    }
}

/* ---- texts ---- */

static void hand_out(voldazpe_house_t *house, voldazpe_house_text_t text, const char *bytes, size_t length) {
    journal_t *journal = house->journal;
    if (length == 0) return;
    journal->lengths[text] += length;
    if (house->options.journal) {
        bool inner = voldazpe_house_in_hook;
        voldazpe_house_in_hook = true;
        house->options.journal(house->options.journal_context, text, bytes, length);
        voldazpe_house_in_hook = inner;
    }
    if (journal->files[text] >= 0) write_file(journal, text, bytes, length);
}

static void flush(voldazpe_house_t *house, voldazpe_house_text_t text) {
    chunk_t *chunk = &house->journal->chunks[text];
    hand_out(house, text, chunk->bytes, chunk->used);
    chunk->used = 0;
}

static void add_text(chunk_t *chunk, const char *text) {
    size_t length = strlen(text);
    memcpy(chunk->bytes + chunk->used, text, length);
    chunk->used += length;
}

static void add_number(chunk_t *chunk, uint64_t number) {
    char digits[20];
    size_t count = 0;
    do {
        digits[count++] = (char)('0' + number % 10);
        number /= 10;
    } while (number > 0);
    while (count > 0) chunk->bytes[chunk->used++] = digits[--count];
}

static void add(chunk_t *chunk, const char *text, uint64_t number) {
    add_text(chunk, text);
    add_number(chunk, number);
}

static void add_client(chunk_t *chunk, uint32_t client) {
    if (client == VOLDAZPE_CLOCK) {
        add_text(chunk, "clock");
        return;
    }
    add_number(chunk, client / VOLDAZPE_THREADS);
    add(chunk, ".", client % VOLDAZPE_THREADS);
}

/* Adds an order. Of a request it adds the first `entries` entries. */
static void add_order(chunk_t *chunk, uint32_t client, const voldazpe_order_t *order, uint32_t entries) {
    add_client(chunk, client);
    add_text(chunk, " ");
    add_text(chunk, voldazpe_order_name(order->kind));
    switch ((voldazpe_order_kind_t)order->kind) {
    case VOLDAZPE_ASK:
        for (uint32_t level = 0; level < entries; level++) add(chunk, " ", order->request[level]);
        break;
    case VOLDAZPE_CAP: add(chunk, " ", order->cap); break;
    case VOLDAZPE_TICK: add(chunk, " ", order->moment); break;
    case VOLDAZPE_JOIN:
    case VOLDAZPE_BLOCK:
    case VOLDAZPE_RETIRE:
    case VOLDAZPE_LEAVE:
    case VOLDAZPE_STATUS: break;
    }
}

/* how many entries of a request a script needs: entries left out are 0, and one at least is written */
static uint32_t entries_of(const voldazpe_order_t *order) {
    uint32_t entries = VOLDAZPE_LEVELS;
    while (entries > 1 && order->request[entries - 1] == 0) entries--;
    return entries;
}

static void add_place(chunk_t *chunk, const voldazpe_place_t *place) {
    add_text(chunk, voldazpe_place_name(place->kind));
    switch ((voldazpe_place_kind_t)place->kind) {
    case VOLDAZPE_ON:
        add(chunk, " ", place->core);
        if (place->asked) add_text(chunk, " asked");
        break;
    case VOLDAZPE_UNMANAGED:
    case VOLDAZPE_WAITING:
    case VOLDAZPE_MOVED_AWAY: break;
    }
}

static void add_refusal(chunk_t *chunk, const voldazpe_reply_t *reply) {
    add_number(chunk, reply->refusal);
    add_text(chunk, " ");
    add_text(chunk, voldazpe_refusal_name(reply->refusal));
    switch ((voldazpe_refusal_t)reply->refusal) {
    case VOLDAZPE_CLOCK_BACK: add(chunk, " ", reply->clock); break;
    case VOLDAZPE_ALREADY_JOINED:
    case VOLDAZPE_NOT_JOINED:
    case VOLDAZPE_ALREADY_WAITING:
    case VOLDAZPE_NOT_A_THREAD:
    case VOLDAZPE_CAP_TOO_LARGE: break;
    }
}

static void add_reply(chunk_t *chunk, const voldazpe_reply_t *reply) {
    add_text(chunk, voldazpe_reply_name(reply->kind));
    switch ((voldazpe_reply_kind_t)reply->kind) {
    case VOLDAZPE_JOINED:
    case VOLDAZPE_DONE: break;
    case VOLDAZPE_DUE: add(chunk, " ", reply->due); break;
    case VOLDAZPE_NOW:
        add_text(chunk, " ");
        add_place(chunk, &reply->place);
        break;
    case VOLDAZPE_MOVED: add(chunk, " ", reply->moved); break;
    case VOLDAZPE_COUNTS:
        add(chunk, " due ", reply->due);
        add(chunk, " owned ", reply->owned);
        add(chunk, " asked ", reply->asked);
        add(chunk, " waiting ", reply->waiting);
        break;
    case VOLDAZPE_REFUSED:
        add_text(chunk, " ");
        add_refusal(chunk, reply);
        break;
    }
}

static void add_owner(chunk_t *chunk, const voldazpe_house_t *house, uint32_t position) {
    int32_t seat = house->owner[position];
    add(chunk, "core ", house->cores[position].number);
    add(chunk, " socket ", house->cores[position].socket);
    if (seat < 0) {
        add_text(chunk, " free\n");
        return;
    }
    add_text(chunk, " owner ");
    add_client(chunk, (uint32_t)seat);
    add_text(chunk, house->place[seat] & 1 ? " asked\n" : "\n");
}

/* ---- pieces ---- */

static void flush_texts(voldazpe_house_t *house) {
    flush(house, VOLDAZPE_HOUSE_SCRIPT);
    flush(house, VOLDAZPE_HOUSE_REPLIES);
}

/* Begins a piece. Returns 0, or an errno. */
static int begin_piece(journal_t *journal) {
    int fault = 0;
    for (int text = VOLDAZPE_HOUSE_SCRIPT; text < TEXTS; text++) {
        journal->lengths[text] = 0;
        if (journal->folder && !VOLDAZPE_LOAD(&journal->failed) && fault == 0) fault = make_file(journal, text);
    }
    if (fault != 0) give_up(journal);
    return fault;
}

/* Ends the present piece, and begins the next. */
static void change_pieces(voldazpe_house_t *house) {
    flush_texts(house);
    close_files(house->journal);
    house->journal->piece++;
    (void)begin_piece(house->journal);
}

/* Makes room for a line of the script and for `replies` lines of replies: in the chunks, and in the present piece or a
 * new one. */
static void make_room(voldazpe_house_t *house, size_t replies) {
    const size_t most[] = {0, LINE_BYTES, replies * LINE_BYTES};
    journal_t *journal = house->journal;
    bool fits = true;
    for (uint32_t text = VOLDAZPE_HOUSE_SCRIPT; text < TEXTS; text++) {
        size_t used = journal->chunks[text].used;
        fits = fits && journal->lengths[text] + used + most[text] <= VOLDAZPE_HOUSE_PIECE;
        if (used + most[text] > CHUNK) flush(house, (voldazpe_house_text_t)text);
    }
    if (!fits) change_pieces(house);
}

static void write_record(voldazpe_house_t *house, const record_t *record) {
    chunk_t *script = &house->journal->chunks[VOLDAZPE_HOUSE_SCRIPT];
    chunk_t *replies = &house->journal->chunks[VOLDAZPE_HOUSE_REPLIES];
    make_room(house, 1);
    add_order(script, record->client, &record->order, entries_of(&record->order));
    add_text(script, "\n");
    add_order(replies, record->client, &record->order, VOLDAZPE_LEVELS);
    add_text(replies, " -> ");
    add_reply(replies, &record->reply);
    add_text(replies, "\n");
}

/* ---- what the house calls ---- */

voldazpe_house_code_t voldazpe_house_journal_open(voldazpe_house_t *house) {
    const char *folder = house->options.journal_folder;
    if (!folder && !house->options.journal) return VOLDAZPE_OK;
    journal_t *journal = house->journal = calloc(1, sizeof *journal);
    if (!journal) return VOLDAZPE_OUT_OF_MEMORY;
    for (int text = 0; text < TEXTS; text++) journal->files[text] = -1;
    journal->front = calloc(1, sizeof *journal->front);
    journal->back = calloc(1, sizeof *journal->back);
    journal->folder = folder ? strdup(folder) : NULL;
    if (!journal->front || !journal->back || (folder && !journal->folder)) return VOLDAZPE_OUT_OF_MEMORY;
    int fault = folder ? make_file(journal, VOLDAZPE_HOUSE_MACHINE) : 0;
    if (fault == 0) fault = begin_piece(journal);
    if (fault == 0) hand_out(house, VOLDAZPE_HOUSE_MACHINE, house->text, house->length);
    if (fault == 0 && !VOLDAZPE_LOAD(&journal->failed)) return VOLDAZPE_OK;
    if (folder) remove_files(journal);
    return fault == EEXIST ? VOLDAZPE_HOUSE_JOURNAL_THERE : VOLDAZPE_HOUSE_JOURNAL;
}

bool voldazpe_house_journal_close(voldazpe_house_t *house) {
    journal_t *journal = house->journal;
    if (!journal) return true;
    close_files(journal);
    bool complete = !VOLDAZPE_LOAD(&journal->failed);
    free(journal->front);
    free(journal->back);
    free(journal->folder);
    free(journal);
    house->journal = NULL;
    return complete;
}

bool voldazpe_house_journal_has_room(const voldazpe_house_t *house) {
    return !house->journal || house->journal->front->count <= RECORDS - HOLD;
}

bool voldazpe_house_journal_is_half_full(const voldazpe_house_t *house) {
    return house->journal && house->journal->front->count > RECORDS / 2;
}

bool voldazpe_house_journal_failed(const voldazpe_house_t *house) {
    return house->journal && VOLDAZPE_LOAD(&house->journal->failed);
}

void voldazpe_house_journal_order(voldazpe_house_t *house, uint32_t client, const voldazpe_order_t *order,
                                  const voldazpe_reply_t *reply) {
    buffer_t *front = house->journal->front;
    front->records[front->count++] = (record_t){*order, *reply, client};
}

void voldazpe_house_journal_write(voldazpe_house_t *house) {
    journal_t *journal = house->journal;
    buffer_t *full = journal->front;
    journal->front = journal->back;
    journal->back = full;
    journal->front->count = 0;
    house->wanted = false;
    atomic_fetch_add(&house->emptied, 1);
    voldazpe_house_unlock(house);
    voldazpe_house_wake(&house->emptied);
    for (uint32_t i = 0; i < full->count; i++) write_record(house, &full->records[i]);
    flush_texts(house);
    voldazpe_house_lock(house);
}

void voldazpe_house_journal_end(voldazpe_house_t *house) {
    chunk_t *replies = &house->journal->chunks[VOLDAZPE_HOUSE_REPLIES];
    make_room(house, house->machine.managed + 1u);
    add_text(&house->journal->chunks[VOLDAZPE_HOUSE_SCRIPT], "cores\n");
    for (uint32_t position = 0; position < house->machine.managed; position++) add_owner(replies, house, position);
    add_text(replies, "end\n");
    flush_texts(house);
}
