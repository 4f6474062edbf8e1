/* Runs logs over a flash in memory, through punelovash.h, on both boards. Exit status 0: every check held; 1: the message says which did not. */
#include "punelovash.h"

#include <stdarg.h>
#include <stdio.h>
#include <stdlib.h>
#include <string.h>

/* ---- The boards: functions, readers and places of each, under one set of names and types ---- */

struct board {
    const char *name;
    uint32_t w;
    uint64_t ceiling;
    size_t block_size;
    size_t at_page_size, at_page_count, at_first_page, at_flags, at_state, at_oldest, at_read, at_append, at_kept, at_report;

    uint64_t (*word_at)(const uint8_t *block, size_t at); /* a word of the board */
    uint8_t (*state)(const uint8_t *block);
    uint8_t (*report)(const uint8_t *block);
    uint8_t (*report_lost)(const uint8_t *block);
    uint8_t (*report_result)(const uint8_t *block);
    uint32_t (*report_length)(const uint8_t *block);
    uint8_t (*request)(const uint8_t *block);
    uint32_t (*request_page)(const uint8_t *block);

    uint32_t (*restart)(uint8_t *block, size_t block_length, uint32_t p, uint32_t n, uint32_t first, uint8_t circular,
        uint8_t read_client, uint8_t append_client, const uint8_t *volume, size_t volume_length, uint8_t *page, size_t page_length,
        const uint8_t *hold, size_t hold_length);
    uint32_t (*append)(uint8_t *block, size_t block_length, const uint8_t *volume, size_t volume_length, uint8_t *page,
        size_t page_length, uint8_t *hold, size_t hold_length, const uint8_t *data, size_t data_length, size_t length, uint8_t word);
    uint32_t (*read)(uint8_t *block, size_t block_length, const uint8_t *volume, size_t volume_length, const uint8_t *page,
        size_t page_length, uint8_t *buffer, size_t buffer_length, size_t length);
    uint32_t (*seek)(uint8_t *block, size_t block_length, uint64_t id);
    uint32_t (*sync)(uint8_t *block, size_t block_length, const uint8_t *volume, size_t volume_length, uint8_t *page,
        size_t page_length, const uint8_t *hold, size_t hold_length, uint8_t word);
    uint32_t (*erase)(uint8_t *block, size_t block_length, uint8_t word);
    uint32_t (*write_complete)(uint8_t *block, size_t block_length, const uint8_t *volume, size_t volume_length, uint8_t *page,
        size_t page_length, const uint8_t *hold, size_t hold_length, uint8_t good);
    uint32_t (*erase_complete)(uint8_t *block, size_t block_length, const uint8_t *volume, size_t volume_length, uint8_t *page,
        size_t page_length, const uint8_t *hold, size_t hold_length, uint8_t good, uint8_t word);
    uint32_t (*deferred_call)(uint8_t *block, size_t block_length);
    uint32_t (*survey)(uint32_t p, uint32_t n, uint32_t first, const uint8_t *volume, size_t volume_length, uint64_t *ids,
        size_t ids_length, size_t *count);
    uint32_t (*nearest)(const uint8_t *block, size_t block_length, const uint8_t *volume, size_t volume_length, const uint8_t *page,
        size_t page_length, uint32_t stamp, uint64_t *entry_id);
    uint32_t (*between)(const uint8_t *block, size_t block_length, const uint8_t *volume, size_t volume_length, const uint8_t *page,
        size_t page_length, uint32_t first, uint32_t last, uint64_t *ids, size_t ids_length, uint64_t *value);
    uint32_t (*next_entry)(const uint8_t *block, size_t block_length, const uint8_t *volume, size_t volume_length, const uint8_t *page,
        size_t page_length, uint64_t at, uint64_t *entry_id, size_t *length, uint64_t *end);
    uint64_t (*log_start)(const uint8_t *block, size_t block_length);
    uint64_t (*log_end)(const uint8_t *block, size_t block_length);
    uint64_t (*next_read_entry_id)(const uint8_t *block, size_t block_length);
    size_t (*get_size)(const uint8_t *block, size_t block_length);
};

enum { ROOM = 16 }; /* a survey's elements */

/* a board by its prefixes; where a function has IDs of the board's own types, a survey's `id` and `entry`, one with 64 bits calls it */
#define BOARD(lower, UPPER, word_bytes, c, id, entry) \
    static uint64_t lower##_word(const uint8_t *block, size_t at) { return lower##_word_at(block, at); } \
    static uint32_t lower##_seek_to(uint8_t *block, size_t length, uint64_t to) { return lower##_seek(block, length, to); } \
    static uint64_t lower##_start(const uint8_t *block, size_t length) { return lower##_log_start(block, length); } \
    static uint64_t lower##_end(const uint8_t *block, size_t length) { return lower##_log_end(block, length); } \
    static uint64_t lower##_next(const uint8_t *block, size_t length) { return lower##_next_read_entry_id(block, length); } \
    static uint32_t lower##_survey_to(uint32_t p, uint32_t n, uint32_t first, const uint8_t *volume, size_t length, \
        uint64_t *ids, size_t room, size_t *count) \
    { \
        id own[ROOM]; \
        uint32_t answer; \
        for (size_t k = 0; k < ROOM; k++) own[k] = (id)ids[k]; \
        answer = lower##_survey(p, n, first, volume, length, own, room, count); \
        for (size_t k = 0; k < ROOM; k++) ids[k] = own[k]; \
        return answer; \
    } \
    static uint32_t lower##_nearest_to(const uint8_t *block, size_t length, const uint8_t *volume, size_t volume_length, \
        const uint8_t *page, size_t page_length, uint32_t stamp, uint64_t *entry_id) \
    { \
        entry own = (entry)*entry_id; \
        uint32_t answer = lower##_nearest(block, length, volume, volume_length, page, page_length, stamp, &own); \
        *entry_id = own; \
        return answer; \
    } \
    static uint32_t lower##_between_to(const uint8_t *block, size_t length, const uint8_t *volume, size_t volume_length, \
        const uint8_t *page, size_t page_length, uint32_t first, uint32_t last, uint64_t *ids, size_t room, uint64_t *value) \
    { \
        entry own = (entry)*value; \
        uint32_t answer = lower##_between(block, length, volume, volume_length, page, page_length, first, last, ids, room, &own); \
        *value = own; \
        return answer; \
    } \
    static uint32_t lower##_next_entry_to(const uint8_t *block, size_t length, const uint8_t *volume, size_t volume_length, \
        const uint8_t *page, size_t page_length, uint64_t at, uint64_t *entry_id, size_t *entry_length, uint64_t *end) \
    { \
        entry own = (entry)*entry_id, own_end = (entry)*end; \
        uint32_t answer = lower##_next_entry(block, length, volume, volume_length, page, page_length, at, &own, entry_length, &own_end); \
        *entry_id = own; \
        *end = own_end; \
        return answer; \
    } \
    static const struct board lower = { \
        .name = #lower, .w = word_bytes, .ceiling = c, .block_size = UPPER##_BLOCK_SIZE, \
        .at_page_size = UPPER##_AT_PAGE_SIZE, .at_page_count = UPPER##_AT_PAGE_COUNT, .at_first_page = UPPER##_AT_FIRST_PAGE, \
        .at_flags = UPPER##_AT_FLAGS, .at_state = UPPER##_AT_STATE, .at_oldest = UPPER##_AT_OLDEST, .at_read = UPPER##_AT_READ, \
        .at_append = UPPER##_AT_APPEND, .at_kept = UPPER##_AT_KEPT, .at_report = UPPER##_AT_REPORT, \
        .word_at = lower##_word, .state = lower##_state, .report = lower##_report, .report_lost = lower##_report_lost, \
        .report_result = lower##_report_result, .report_length = lower##_report_length, .request = lower##_request, \
        .request_page = lower##_request_page, .restart = lower##_restart, .append = lower##_append, .read = lower##_read, \
        .seek = lower##_seek_to, .sync = lower##_sync, .erase = lower##_erase, .write_complete = lower##_write_complete, \
        .erase_complete = lower##_erase_complete, .deferred_call = lower##_deferred_call, .survey = lower##_survey_to, \
        .nearest = lower##_nearest_to, .between = lower##_between_to, .next_entry = lower##_next_entry_to, \
        .log_start = lower##_start, .log_end = lower##_end, .next_read_entry_id = lower##_next, .get_size = lower##_get_size \
    };

BOARD(punelovash, PUNELOVASH, 4, 1879048192u, uint32_t, size_t)
BOARD(punelovash8, PUNELOVASH8, 8, 0x7000000000000000u, uint64_t, uint64_t)

/* the greater block of the two */
enum { BLOCK_ROOM = PUNELOVASH8_BLOCK_SIZE };

/* the board that is tested, and the bytes of its words */
static const struct board *board;
static uint32_t w;

/* ---- Checks ---- */

static const char *part = "";
static unsigned long checks, calls;

static void fail(int line, const char *what, const char *format, ...)
{
    va_list words;
    fprintf(stderr, "test.c:%d: %s: %s: not so: %s: ", line, board->name, part, what);
    va_start(words, format);
    vfprintf(stderr, format, words);
    va_end(words);
    fputc('\n', stderr);
    exit(1);
}

#define CHECK(fact, ...) do { checks++; if (!(fact)) fail(__LINE__, #fact, __VA_ARGS__); } while (0)
#define SAME(a, b, what) do { \
        unsigned long long a_ = (unsigned long long)(a), b_ = (unsigned long long)(b); \
        checks++; \
        if (a_ != b_) fail(__LINE__, #a " = " #b, "%s: %llu, should be %llu", what, a_, b_); \
    } while (0)

/* ---- Buffers with bytes before and after them that no call may touch ---- */

enum { GUARD = 32, GUARD_BYTE = 0xA5 };

static uint8_t *lend(size_t length, int byte)
{
    uint8_t *all = malloc(length + 2 * GUARD);
    if (all == NULL) fail(__LINE__, "memory", "malloc gave none");
    memset(all, GUARD_BYTE, length + 2 * GUARD);
    memset(all + GUARD, byte, length);
    return all + GUARD;
}

static void unlend(uint8_t *lent) { free(lent - GUARD); }

static void check_guards(const uint8_t *lent, size_t length, const char *name)
{
    int before = 1, after = 1;
    for (size_t i = 0; i < GUARD; i++) {
        before = before && lent[(ptrdiff_t)i - GUARD] == GUARD_BYTE;
        after = after && lent[length + i] == GUARD_BYTE;
    }
    CHECK(before, "a byte before %s was written", name);
    CHECK(after, "a byte after %s was written", name);
}

/* ---- The bench: a log, and its flash in memory ---- */

enum left { OLD, BLANK, NEW };

struct bench {
    uint32_t p, n, first;
    uint8_t circular, read_client, append_client;
    uint8_t *block, *volume, *page, *hold, *buffer;
    uint8_t *flash;   /* what the volume must hold: the library never writes it */
    uint8_t *writing; /* the page of the write under way */
    uint8_t kind;     /* the operation under way: a request's kind */
    uint32_t slot;
    uint64_t pages;   /* one more than the newest page that the flash was asked to write */
};

static size_t volume_length(const struct bench *b) { return (size_t)b->p * b->n; }

static void check_bench(const struct bench *b)
{
    calls++;
    check_guards(b->block, board->block_size, "block");
    check_guards(b->volume, volume_length(b), "volume");
    check_guards(b->page, b->p, "page");
    check_guards(b->hold, b->p, "hold");
    check_guards(b->buffer, b->p, "buffer");
    CHECK(memcmp(b->volume, b->flash, volume_length(b)) == 0, "a call wrote the volume");
}

static uint32_t restart(struct bench *b)
{
    b->kind = PUNELOVASH_NO_REQUEST; /* an operation under way is cut */
    uint32_t answer = board->restart(b->block, board->block_size, b->p, b->n, b->first, b->circular, b->read_client,
        b->append_client, b->volume, volume_length(b), b->page, b->p, b->hold, b->p);
    check_bench(b);
    return answer;
}

static void make(struct bench *b, uint32_t p, uint32_t n, uint32_t first, uint8_t circular)
{
    memset(b, 0, sizeof *b);
    b->p = p;
    b->n = n;
    b->first = first;
    b->circular = circular;
    b->read_client = 1;
    b->append_client = 1;
    b->block = lend(board->block_size, 0xEE); /* no log */
    b->volume = lend(volume_length(b), 0xFF);
    b->flash = lend(volume_length(b), 0xFF);
    b->page = lend(p, 0x33);
    b->hold = lend(p, 0x44);
    b->buffer = lend(p, 0x55);
    b->writing = lend(p, 0);
}

static void fresh(struct bench *b, uint32_t p, uint32_t n, uint32_t first, uint8_t circular)
{
    make(b, p, n, first, circular);
    SAME(restart(b), PUNELOVASH_OK, "restart on a fresh volume");
}

/* a page on flash with an ID, and no entry where `data` is 0, else one of that many bytes */
static void put_page(struct bench *b, uint64_t id, uint32_t data)
{
    uint8_t *at = b->volume + id % volume_length(b);
    memset(at, 0xFF, b->p);
    for (uint32_t k = 0; k < w; k++) at[k] = (uint8_t)(id >> 8 * k);
    if (data != 0) {
        for (uint32_t k = 0; k < w; k++) at[w + k] = (uint8_t)((uint64_t)data >> 8 * k);
        memset(at + 2 * w, 1, data);
    }
    memcpy(b->flash, b->volume, volume_length(b));
}

static void drop(struct bench *b)
{
    unlend(b->block);
    unlend(b->volume);
    unlend(b->flash);
    unlend(b->page);
    unlend(b->hold);
    unlend(b->buffer);
    unlend(b->writing);
}

static uint64_t oldest(const struct bench *b) { return board->log_start(b->block, board->block_size); }
static uint64_t end(const struct bench *b) { return board->log_end(b->block, board->block_size); }
static uint64_t next_read(const struct bench *b) { return board->next_read_entry_id(b->block, board->block_size); }

static void check_ids(const struct bench *b, uint64_t o, uint64_t r, uint64_t a)
{
    SAME(oldest(b), o, "O");
    SAME(next_read(b), r, "R");
    SAME(end(b), a, "A");
    SAME(board->word_at(b->block, board->at_oldest), o, "O in the block");
    SAME(board->word_at(b->block, board->at_read), r, "R in the block");
    SAME(board->word_at(b->block, board->at_append), a, "A in the block");
}

static void check_report(const struct bench *b, uint32_t kind, size_t length, int lost, uint32_t result)
{
    SAME(board->report(b->block), kind, "report");
    SAME(board->report_length(b->block), length, "report's length");
    SAME(board->report_lost(b->block), lost, "report's lost");
    SAME(board->report_result(b->block), result, "report's result");
    if (kind != PUNELOVASH_NO_REPORT) SAME(board->state(b->block), PUNELOVASH_IDLE, "state after a report");
}

static void no_report(const struct bench *b) { check_report(b, PUNELOVASH_NO_REPORT, 0, 0, PUNELOVASH_OK); }

static void check_request(const struct bench *b, uint32_t kind, uint32_t page)
{
    SAME(board->request(b->block), kind, "request");
    SAME(board->request_page(b->block), page, "request's page");
}

/* the driver starts what is requested, where the word was OK */
static void start(struct bench *b, uint32_t answer, uint8_t word)
{
    if (answer == PUNELOVASH_SHAPE || answer == PUNELOVASH_STATE || word != PUNELOVASH_WORD_OK) return;
    if (board->request(b->block) == PUNELOVASH_NO_REQUEST) return;
    SAME(b->kind, PUNELOVASH_NO_REQUEST, "operations under way when another is requested");
    CHECK(board->request_page(b->block) >= b->first && board->request_page(b->block) < b->first + b->n,
        "page %u is not of the volume", (unsigned)board->request_page(b->block));
    b->kind = board->request(b->block);
    b->slot = board->request_page(b->block) - b->first;
    memcpy(b->writing, b->page, b->p);
    if (b->kind == PUNELOVASH_WRITE) b->pages = (end(b) - 1) / b->p + 1;
}

static uint32_t append(struct bench *b, const uint8_t *data, size_t data_length, size_t length, uint8_t word)
{
    uint32_t answer = board->append(b->block, board->block_size, b->volume, volume_length(b), b->page, b->p, b->hold, b->p,
        data, data_length, length, word);
    check_bench(b);
    start(b, answer, word);
    return answer;
}

static uint32_t read_into(struct bench *b, uint8_t *buffer, size_t buffer_length, size_t length)
{
    uint32_t answer = board->read(b->block, board->block_size, b->volume, volume_length(b), b->page, b->p, buffer,
        buffer_length, length);
    check_bench(b);
    return answer;
}

static uint32_t seek(struct bench *b, uint64_t id)
{
    uint32_t answer = board->seek(b->block, board->block_size, id);
    check_bench(b);
    return answer;
}

static uint32_t sync_log(struct bench *b, uint8_t word)
{
    uint32_t answer = board->sync(b->block, board->block_size, b->volume, volume_length(b), b->page, b->p, b->hold, b->p, word);
    check_bench(b);
    start(b, answer, word);
    return answer;
}

static uint32_t erase(struct bench *b, uint8_t word)
{
    uint32_t answer = board->erase(b->block, board->block_size, word);
    check_bench(b);
    start(b, answer, word);
    return answer;
}

static uint32_t write_complete(struct bench *b, uint8_t good)
{
    uint32_t answer = board->write_complete(b->block, board->block_size, b->volume, volume_length(b), b->page, b->p, b->hold,
        b->p, good);
    check_bench(b);
    start(b, answer, PUNELOVASH_WORD_OK);
    return answer;
}

static uint32_t erase_complete(struct bench *b, uint8_t good, uint8_t word)
{
    uint32_t answer = board->erase_complete(b->block, board->block_size, b->volume, volume_length(b), b->page, b->p, b->hold,
        b->p, good, word);
    check_bench(b);
    start(b, answer, word);
    return answer;
}

static uint32_t deferred_call(struct bench *b)
{
    uint32_t answer = board->deferred_call(b->block, board->block_size);
    check_bench(b);
    return answer;
}

/* the operation under way ends, well, failed or cut, and leaves this */
static void ends(struct bench *b, enum left left)
{
    uint8_t *at = b->volume + (size_t)b->slot * b->p;
    CHECK(b->kind != PUNELOVASH_NO_REQUEST, "no operation is under way");
    if (b->kind == PUNELOVASH_WRITE) CHECK(memcmp(b->writing, b->page, b->p) == 0, "the page buffer changed during a write");
    if (left == BLANK) memset(at, 0xFF, b->p);
    if (left == NEW) memcpy(at, b->writing, b->p);
    memcpy(b->flash, b->volume, volume_length(b));
    b->kind = PUNELOVASH_NO_REQUEST;
}

/* ---- Entries: each has bytes of its own, and what was appended is remembered ---- */

enum { MOST = 2000 };

struct entries {
    size_t count;
    struct { uint64_t id; size_t length; } e[MOST];
};

/* the most data that an entry has, so that it fills its page; and what still fits after an entry of so many bytes */
static uint32_t full(uint32_t p) { return p - 2 * w; }
static uint32_t rest(uint32_t p, uint32_t data) { return full(p) - w - data; }

/* where the first entry of so many bytes ends */
static uint32_t after(uint32_t data) { return 2 * w + data; }

static size_t entry_length(size_t i, uint32_t p)
{
    size_t length = 1 + (i * 7 + i / 5) % full(p);
    return length % 256 == 0 || length % 256 == 255 ? length - 2 : length; /* the header says why */
}

static void entry_bytes(size_t i, size_t length, uint8_t *to)
{
    for (size_t k = 0; k < length; k++) to[k] = (uint8_t)(i * 31 + k * 13 + (i >> 8) + 1);
}

/* appends an entry of these bytes, its page's write included */
static void append_bytes(struct bench *b, struct entries *all, const uint8_t *data, size_t length)
{
    size_t i = all->count;
    uint64_t before = end(b);
    int wrote;
    CHECK(i < MOST, "too many entries for the test");
    SAME(append(b, data, length, length, PUNELOVASH_WORD_OK), PUNELOVASH_OK, "append");
    wrote = board->request(b->block) == PUNELOVASH_WRITE;
    CHECK(wrote == (before % b->p == 0 || before % b->p + w + length > b->p), "a write %s requested", wrote ? "was" : "wasn't");
    if (wrote) {
        no_report(b);
        SAME(board->state(b->block), PUNELOVASH_IN_APPEND, "state");
        ends(b, NEW);
        SAME(write_complete(b, 1), PUNELOVASH_OK, "write_complete");
    }
    check_report(b, PUNELOVASH_APPEND_DONE, length, oldest(b) != w, PUNELOVASH_OK);
    check_request(b, PUNELOVASH_NO_REQUEST, 0);
    all->e[i].id = wrote ? (before + b->p - 1) / b->p * b->p + w : before;
    all->e[i].length = length;
    all->count++;
    SAME(end(b), all->e[i].id + w + length, "A after an append");
}

/* appends entry i */
static void append_entry(struct bench *b, struct entries *all, size_t length)
{
    uint8_t data[4096];
    entry_bytes(all->count, length, data);
    append_bytes(b, all, data, length);
}

/* reads the next entry, which must be entry i */
static void read_entry(struct bench *b, const struct entries *all, size_t i)
{
    uint8_t want[4096];
    memset(want, 0x55, b->p);
    memset(b->buffer, 0x55, b->p);
    entry_bytes(i, all->e[i].length, want);
    SAME(read_into(b, b->buffer, b->p, b->p), PUNELOVASH_OK, "read");
    no_report(b);
    SAME(board->state(b->block), PUNELOVASH_IN_READ, "state");
    SAME(punelovash_word_at(b->block, board->at_kept), all->e[i].length, "kept length");
    CHECK(memcmp(b->buffer, want, b->p) == 0, "the bytes of entry %zu, or those after it, are others", i);
    SAME(next_read(b), all->e[i].id + w + all->e[i].length, "R after a read");
    SAME(deferred_call(b), PUNELOVASH_OK, "deferred_call");
    check_report(b, PUNELOVASH_READ_DONE, all->e[i].length, 0, PUNELOVASH_OK);
}

static void end_of_log(struct bench *b)
{
    uint64_t r = next_read(b);
    memset(b->buffer, 0x55, b->p);
    SAME(read_into(b, b->buffer, b->p, b->p), PUNELOVASH_FAIL, "read at the end of the log");
    no_report(b);
    SAME(next_read(b), r, "R after FAIL");
    for (uint32_t k = 0; k < b->p; k++) SAME(b->buffer[k], 0x55, "the buffer after FAIL");
}

static void seek_done(struct bench *b, uint64_t id)
{
    SAME(seek(b, id), PUNELOVASH_OK, "seek");
    no_report(b);
    SAME(board->state(b->block), PUNELOVASH_IN_SEEK, "state");
    SAME(next_read(b), id, "R after a seek");
    SAME(deferred_call(b), PUNELOVASH_OK, "deferred_call");
    check_report(b, PUNELOVASH_SEEK_DONE, 0, 0, PUNELOVASH_OK);
}

/* the first entry that isn't lost */
static size_t first_entry(const struct bench *b, const struct entries *all)
{
    size_t i = 0;
    while (i < all->count && all->e[i].id < oldest(b)) i++;
    return i;
}

/* ---- The two searches and the step: they change no byte but the numbers and elements that they give ---- */

enum { STAYS = 77 };

static struct { uint8_t block[BLOCK_ROOM], page[4096], hold[4096]; } kept;

static void keep(const struct bench *b)
{
    memcpy(kept.block, b->block, board->block_size);
    memcpy(kept.page, b->page, b->p);
    memcpy(kept.hold, b->hold, b->p);
}

static void check_kept(const struct bench *b)
{
    CHECK(memcmp(kept.block, b->block, board->block_size) == 0, "the block changed");
    CHECK(memcmp(kept.page, b->page, b->p) == 0, "the page buffer changed");
    CHECK(memcmp(kept.hold, b->hold, b->p) == 0, "the hold buffer changed");
    check_bench(b);
}

static int gives_number(uint32_t answer) { return answer == PUNELOVASH_OK || answer == PUNELOVASH_NOMARK; }

/* the nearest mark's ID, or that of an entry that is no mark, is `id`; it stays with any other answer */
static void check_nearest(const struct bench *b, uint32_t stamp, uint32_t answer, uint64_t id)
{
    uint64_t got = STAYS;
    keep(b);
    SAME(board->nearest(b->block, board->block_size, b->volume, volume_length(b), b->page, b->p, stamp, &got), answer, "nearest");
    check_kept(b);
    SAME(got, gives_number(answer) ? id : STAYS, "the ID that nearest gives");
}

/* the count, or the ID of an entry that is no mark, is `value`; `want` has as many IDs as OK counts */
static void check_between(const struct bench *b, uint32_t first, uint32_t last, size_t room, uint32_t answer, uint64_t value,
    const uint64_t *want)
{
    size_t length = room * sizeof(uint64_t), count = answer == PUNELOVASH_OK ? (size_t)value : 0;
    uint8_t *lent = lend(length, 0x66);
    uint64_t got = STAYS;
    keep(b);
    SAME(board->between(b->block, board->block_size, b->volume, volume_length(b), b->page, b->p, first, last, (uint64_t *)(void *)lent,
        room, &got), answer, "between");
    check_kept(b);
    check_guards(lent, length, "the IDs");
    SAME(got, gives_number(answer) ? value : STAYS, "the number that between gives");
    CHECK(count <= room, "more IDs than room");
    for (size_t k = 0; k < count; k++) SAME(((uint64_t *)(void *)lent)[k], want[k], "an ID that between gives");
    for (size_t k = count * sizeof(uint64_t); k < length; k++) SAME(lent[k], 0x66, "the elements after the count");
    unlend(lent);
}

/* the marks from `first` to `last` are these, and between gives them where there is room for each */
static void check_found(const struct bench *b, uint32_t first, uint32_t last, const uint64_t *want, size_t count)
{
    for (size_t room = count < 4 ? 0 : count - 2; room < count; room++)
        check_between(b, first, last, room, PUNELOVASH_SIZE, 0, want);
    for (size_t room = count; room < count + 3; room++) check_between(b, first, last, room, PUNELOVASH_OK, count, want);
}

/* the first entry at `at` or past it is the one of this ID and length; with any other answer than OK the three numbers stay */
static void check_step(const struct bench *b, uint64_t at, uint32_t answer, uint64_t id, size_t length)
{
    uint64_t got = STAYS, to = STAYS;
    size_t got_length = STAYS;
    keep(b);
    SAME(board->next_entry(b->block, board->block_size, b->volume, volume_length(b), b->page, b->p, at, &got, &got_length, &to), answer,
        "next_entry");
    check_kept(b);
    SAME(got, answer == PUNELOVASH_OK ? id : STAYS, "the ID that next_entry gives");
    SAME(got_length, answer == PUNELOVASH_OK ? length : STAYS, "the length that next_entry gives");
    SAME(to, answer == PUNELOVASH_OK ? id + w + length : STAYS, "the ID after the entry");
}

/* from the oldest on, next_entry gives every entry from `first` up to `count`, and then FAIL */
static void steps_over(const struct bench *b, const struct entries *all, size_t first)
{
    uint64_t at = oldest(b);
    for (size_t i = first; i < all->count; i++) {
        check_step(b, at, PUNELOVASH_OK, all->e[i].id, all->e[i].length);
        at = all->e[i].id + w + all->e[i].length;
    }
    check_step(b, at, PUNELOVASH_FAIL, 0, 0);
}

/* the bytes of the entries from `first` on stand where the header says: in the page buffer or the volume */
static void stand_there(const struct bench *b, const struct entries *all, size_t first)
{
    uint8_t want[4096];
    for (size_t i = first; i < all->count; i++) {
        uint64_t id = all->e[i].id;
        const uint8_t *at = id / b->p == (end(b) - 1) / b->p ? b->page + (id + w) % b->p : b->volume + (id + w) % volume_length(b);
        entry_bytes(i, all->e[i].length, want);
        CHECK(memcmp(at, want, all->e[i].length) == 0, "the bytes of entry %zu stand elsewhere", i);
    }
}

/* from the oldest on, every entry from `first` up to `count` is read, and no other */
static void reads_back(struct bench *b, const struct entries *all, size_t first)
{
    for (size_t i = first; i < all->count; i++) read_entry(b, all, i);
    end_of_log(b);
}

static void synced(struct bench *b, enum left left, uint8_t good)
{
    SAME(sync_log(b, PUNELOVASH_WORD_OK), PUNELOVASH_OK, "sync");
    SAME(board->request(b->block), PUNELOVASH_WRITE, "sync's request");
    SAME(board->state(b->block), PUNELOVASH_IN_SYNC, "state");
    ends(b, left);
    SAME(write_complete(b, good), PUNELOVASH_OK, "write_complete");
    check_report(b, PUNELOVASH_SYNC_DONE, 0, 0, good ? PUNELOVASH_OK : PUNELOVASH_FAIL);
}

/* ---- The parts ---- */

static uint8_t ones[4096];

static void worked_cases(void)
{
    struct bench b;
    part = "cases";

    fresh(&b, 32, 4, 7, 1);
    check_ids(&b, w, w, w);
    no_report(&b);
    check_request(&b, PUNELOVASH_NO_REQUEST, 0);
    SAME(board->get_size(b.block, board->block_size), 4 * 32 - 4 * w, "get_size");
    SAME(board->state(b.block), PUNELOVASH_IDLE, "state");
    SAME(punelovash_word_at(b.block, board->at_page_size), 32, "page size");
    SAME(punelovash_word_at(b.block, board->at_page_count), 4, "page count");
    SAME(punelovash_word_at(b.block, board->at_first_page), 7, "first page");
    SAME(b.block[board->at_flags], PUNELOVASH_CIRCULAR + PUNELOVASH_READ_CLIENT + PUNELOVASH_APPEND_CLIENT, "flags");
    for (int k = 0; k < 32; k++) SAME(b.page[k], 0, "the page buffer of an empty log");
    for (int k = 0; k < 32; k++) SAME(b.hold[k], 0x44, "the hold buffer after a restart");
    SAME(sync_log(&b, PUNELOVASH_WORD_OK), PUNELOVASH_OK, "fresh sync");
    no_report(&b);
    check_request(&b, PUNELOVASH_NO_REQUEST, 0);
    SAME(append(&b, ones, full(32) + 1, full(32) + 1, 0), PUNELOVASH_SIZE, "append of more than a page holds");
    SAME(append(&b, ones, full(32), full(32), 0), PUNELOVASH_OK, "append of a full page");
    check_ids(&b, w, w, 32);
    drop(&b);

    fresh(&b, 32, 4, 7, 1);
    SAME(append(&b, ones, 5, 5, 0), PUNELOVASH_OK, "append 5");
    check_report(&b, PUNELOVASH_APPEND_DONE, 5, 0, PUNELOVASH_OK);
    check_ids(&b, w, w, 2 * w + 5);
    SAME(append(&b, ones, rest(32, 5), rest(32, 5), 0), PUNELOVASH_OK, "append of what still fits");
    check_ids(&b, w, w, 32);
    SAME(append(&b, ones, 1, 1, 0), PUNELOVASH_OK, "append 1");
    check_request(&b, PUNELOVASH_WRITE, 7);
    SAME(b.hold[0], ones[0], "the data in the hold buffer");
    SAME(b.hold[1], 0x44, "the hold buffer's other bytes");
    ends(&b, NEW);
    SAME(write_complete(&b, 1), PUNELOVASH_OK, "write_complete");
    check_report(&b, PUNELOVASH_APPEND_DONE, 1, 0, PUNELOVASH_OK);
    check_ids(&b, w, w, 32 + 2 * w + 1);
    drop(&b);

    fresh(&b, 32, 4, 7, 1);
    SAME(append(&b, ones, full(32) - 4, full(32) - 4, 0), PUNELOVASH_OK, "append of all but 4");
    SAME(append(&b, ones, 1, 1, 0), PUNELOVASH_OK, "append 1");
    for (int k = 28; k < 32; k++) SAME(b.page[k], 0xFF, "padding");
    ends(&b, NEW);
    SAME(write_complete(&b, 1), PUNELOVASH_OK, "write_complete");
    check_ids(&b, w, w, 32 + 2 * w + 1);
    drop(&b);

    /* a flush of page 4 takes page 0's place */
    fresh(&b, 32, 4, 0, 1);
    for (uint32_t k = 0; k < 5; k++) {
        SAME(append(&b, ones, full(32), full(32), 0), PUNELOVASH_OK, "append of a full page");
        if (k == 0) continue;
        check_request(&b, PUNELOVASH_WRITE, k - 1);
        ends(&b, NEW);
        SAME(write_complete(&b, 1), PUNELOVASH_OK, "write_complete");
    }
    check_ids(&b, w, w, 160);
    SAME(append(&b, ones, full(32), full(32), 0), PUNELOVASH_OK, "append of a full page");
    check_request(&b, PUNELOVASH_WRITE, 0);
    check_ids(&b, 32 + w, 32 + w, 160);
    ends(&b, NEW);
    SAME(write_complete(&b, 1), PUNELOVASH_OK, "write_complete");
    check_report(&b, PUNELOVASH_APPEND_DONE, full(32), 1, PUNELOVASH_OK);
    drop(&b);

    /* slot 3 full, and its page the last below the ceiling: A = C */
    make(&b, 32, 4, 0, 1);
    put_page(&b, board->ceiling - 32, full(32));
    SAME(restart(&b), PUNELOVASH_OK, "restart near the ceiling");
    check_ids(&b, board->ceiling - 32 + w, board->ceiling - 32 + w, board->ceiling);
    SAME(append(&b, ones, 1, 1, 0), PUNELOVASH_LIMIT, "append at the ceiling");
    no_report(&b);
    check_request(&b, PUNELOVASH_NO_REQUEST, 0);
    drop(&b);

    /* a header at the ceiling is none */
    make(&b, 32, 4, 0, 1);
    put_page(&b, board->ceiling, full(32));
    SAME(restart(&b), PUNELOVASH_OK, "restart on a page at the ceiling");
    check_ids(&b, w, w, w);
    drop(&b);
}

/* `from` is the ID of the page that the log begins in: 0 is a fresh volume */
static void laps(uint32_t p, uint32_t n, size_t count, uint64_t from)
{
    static struct entries all;
    struct bench b;
    part = from == 0 ? "laps" : "laps far on";
    all.count = 0;
    make(&b, p, n, 1000, 1);
    if (from != 0) put_page(&b, from, 0);
    SAME(restart(&b), PUNELOVASH_OK, "restart");
    check_ids(&b, from + w, from + w, from + w);
    for (size_t i = 0; i < count; i++) {
        append_entry(&b, &all, entry_length(i, p));
        if (i % 13 == 12 && end(&b) % p != w) synced(&b, NEW, 1);
        SAME(oldest(&b), (b.pages > from / p + n ? (b.pages - n) * p : from) + w, "O");
        if (i % 29 == 0) {
            size_t first = first_entry(&b, &all);
            seek_done(&b, oldest(&b));
            SAME(all.e[first].id, oldest(&b), "the oldest entry's ID");
            reads_back(&b, &all, first);
            steps_over(&b, &all, first);
            stand_there(&b, &all, first);
        }
    }
    CHECK(end(&b) - from > 4 * volume_length(&b), "fewer than four laps");

    part = "seek";
    for (size_t i = first_entry(&b, &all); i < all.count; i++) {
        seek_done(&b, all.e[i].id);
        read_entry(&b, &all, i);
    }
    end_of_log(&b);
    seek_done(&b, end(&b));
    end_of_log(&b);
    {
        uint64_t r = next_read(&b);
        SAME(seek(&b, oldest(&b) - 1), PUNELOVASH_INVAL, "seek to O - 1");
        SAME(seek(&b, end(&b) + 1), PUNELOVASH_INVAL, "seek to A + 1");
        SAME(seek(&b, end(&b) + ((uint64_t)1 << 32)), PUNELOVASH_INVAL, "seek to an ID whose lower half is A");
        SAME(seek(&b, UINT64_MAX), PUNELOVASH_INVAL, "seek to the greatest number");
        SAME(next_read(&b), r, "R after INVAL");
    }

    part = "restart";
    {
        uint64_t o, a;
        if (end(&b) % p != w) synced(&b, NEW, 1);
        o = oldest(&b);
        a = end(&b);
        memset(b.block, 0xEE, board->block_size);
        memset(b.page, 0x77, p);
        SAME(restart(&b), PUNELOVASH_OK, "restart");
        check_ids(&b, o, o, a);
        reads_back(&b, &all, first_entry(&b, &all));
    }

    part = "erase";
    SAME(erase(&b, PUNELOVASH_WORD_OK), PUNELOVASH_OK, "erase");
    {
        size_t pages = 0;
        for (;;) {
            check_request(&b, PUNELOVASH_ERASE, 1000 + (uint32_t)(oldest(&b) / p % n));
            no_report(&b);
            SAME(board->state(b.block), PUNELOVASH_IN_ERASE, "state");
            SAME(append(&b, ones, 1, 1, 0), PUNELOVASH_BUSY, "append during an erase");
            ends(&b, BLANK);
            pages++;
            CHECK(pages <= n + 1, "the erase never ends");
            SAME(erase_complete(&b, 1, PUNELOVASH_WORD_OK), PUNELOVASH_OK, "erase_complete");
            if (board->report(b.block) != PUNELOVASH_NO_REPORT) break;
        }
    }
    check_report(&b, PUNELOVASH_ERASE_DONE, 0, 0, PUNELOVASH_OK);
    check_request(&b, PUNELOVASH_NO_REQUEST, 0);
    check_ids(&b, w, w, w);
    for (uint32_t k = 0; k < p; k++) SAME(b.page[k], 0, "the page buffer after an erase");
    for (size_t k = 0; k < volume_length(&b); k++) SAME(b.volume[k], 0xFF, "the volume after an erase");
    end_of_log(&b);
    all.count = 0;
    append_entry(&b, &all, 3);
    reads_back(&b, &all, 0);
    drop(&b);
}

/* a page with one synced entry and two more, whose write is cut */
static void cut_in_sync(enum left left)
{
    static struct entries all;
    struct bench b;
    part = left == OLD ? "sync cut, old" : left == BLANK ? "sync cut, blank" : "sync cut, new";
    all.count = 0;
    fresh(&b, 16 * w, 4, 0, 1);
    append_entry(&b, &all, 10);
    synced(&b, NEW, 1);
    append_entry(&b, &all, 11);
    append_entry(&b, &all, 12);
    SAME(sync_log(&b, PUNELOVASH_WORD_OK), PUNELOVASH_OK, "sync");
    ends(&b, left);
    memset(b.page, 0x77, b.p);
    memset(b.hold, 0x66, b.p);
    SAME(restart(&b), PUNELOVASH_OK, "restart after a cut");
    all.count = left == OLD ? 1 : left == BLANK ? 0 : 3;
    check_ids(&b, w, w, left == OLD ? after(10) : left == BLANK ? w : after(10) + w + 11 + w + 12);
    reads_back(&b, &all, 0);
    append_entry(&b, &all, 13); /* and on it goes */
    read_entry(&b, &all, all.count - 1);
    drop(&b);
}

/* the flush of an append takes the oldest page's place, and is cut */
static void cut_in_append(enum left left)
{
    static struct entries all;
    struct bench b;
    uint8_t data[32];
    part = left == OLD ? "append cut, old" : left == BLANK ? "append cut, blank" : "append cut, new";
    all.count = 0;
    fresh(&b, 32, 4, 0, 1);
    for (int k = 0; k < 5; k++) append_entry(&b, &all, full(32)); /* page 4 in the buffer, pages 0 to 3 on flash */
    entry_bytes(5, full(32), data);
    SAME(append(&b, data, full(32), full(32), PUNELOVASH_WORD_OK), PUNELOVASH_OK, "append");
    check_request(&b, PUNELOVASH_WRITE, 0);
    ends(&b, left);
    SAME(restart(&b), PUNELOVASH_OK, "restart after a cut");
    if (left == OLD) { /* pages 0 to 3 */
        all.count = 4;
        check_ids(&b, w, w, 4 * 32 + w);
        reads_back(&b, &all, 0);
    } else if (left == BLANK) { /* pages 1 to 3 */
        all.count = 4;
        check_ids(&b, 32 + w, 32 + w, 4 * 32 + w);
        reads_back(&b, &all, 1);
    } else { /* pages 1 to 4 */
        check_ids(&b, 32 + w, 32 + w, 5 * 32 + w);
        reads_back(&b, &all, 1);
    }
    drop(&b);
}

/* an erase is cut in its second page */
static void cut_in_erase(enum left left)
{
    static struct entries all;
    struct bench b;
    part = left == OLD ? "erase cut, old" : "erase cut, blank";
    all.count = 0;
    fresh(&b, 32, 4, 0, 1);
    for (int k = 0; k < 3; k++) append_entry(&b, &all, full(32));
    synced(&b, NEW, 1);
    SAME(erase(&b, PUNELOVASH_WORD_OK), PUNELOVASH_OK, "erase");
    ends(&b, BLANK);
    SAME(erase_complete(&b, 1, PUNELOVASH_WORD_OK), PUNELOVASH_OK, "erase_complete");
    ends(&b, left);
    SAME(restart(&b), PUNELOVASH_OK, "restart after a cut");
    check_ids(&b, left == OLD ? 32 + w : 64 + w, left == OLD ? 32 + w : 64 + w, 96 + w);
    reads_back(&b, &all, left == OLD ? 1 : 2);
    drop(&b);
}

static void failures(void)
{
    static struct entries all;
    struct bench b;
    uint8_t data[32];

    part = "a write that fails";
    for (int left = OLD; left <= NEW; left++) {
        all.count = 0;
        fresh(&b, 32, 4, 0, 1);
        append_entry(&b, &all, full(32));
        entry_bytes(1, full(32), data);
        SAME(append(&b, data, full(32), full(32), PUNELOVASH_WORD_OK), PUNELOVASH_OK, "append");
        ends(&b, (enum left)left);
        SAME(write_complete(&b, 0), PUNELOVASH_OK, "write_complete");
        check_report(&b, PUNELOVASH_APPEND_DONE, 0, 0, PUNELOVASH_FAIL);
        check_ids(&b, w, w, 32);
        reads_back(&b, &all, 0);
        synced(&b, (enum left)left, 0);
        synced(&b, NEW, 1);
        check_ids(&b, w, 32, 32 + w);
        append_entry(&b, &all, full(32));
        seek_done(&b, w);
        reads_back(&b, &all, 0);
        drop(&b);
    }

    part = "an erase that fails";
    for (int left = OLD; left <= BLANK; left++) {
        all.count = 0;
        fresh(&b, 32, 4, 0, 1);
        for (int k = 0; k < 3; k++) append_entry(&b, &all, full(32));
        SAME(erase(&b, PUNELOVASH_WORD_OK), PUNELOVASH_OK, "erase");
        ends(&b, (enum left)left);
        SAME(erase_complete(&b, 0, PUNELOVASH_WORD_OK), PUNELOVASH_OK, "erase_complete");
        check_report(&b, PUNELOVASH_ERASE_DONE, 0, 0, PUNELOVASH_FAIL);
        check_ids(&b, w, w, 96);
        reads_back(&b, &all, left == OLD ? 0 : 1);
        drop(&b);
    }
}

/* the driver refuses to erase a further page: by BUSY (2) or by FAIL (any other word) */
static void erase_stopped(uint8_t word)
{
    static struct entries all;
    struct bench b;
    uint8_t before[BLOCK_ROOM];
    uint32_t result = word == PUNELOVASH_WORD_BUSY ? PUNELOVASH_BUSY : PUNELOVASH_FAIL;

    part = "an erase whose next request is refused";
    for (int cut = 0; cut < 2; cut++) {
        all.count = 0;
        fresh(&b, 32, 4, 0, 1);
        for (int k = 0; k < 3; k++) append_entry(&b, &all, full(32));
        for (uint32_t k = 1; k < 3; k++) {
            SAME(erase(&b, PUNELOVASH_WORD_OK), PUNELOVASH_OK, "erase");
            ends(&b, BLANK);
            memcpy(before, b.block, board->block_size);
            SAME(erase_complete(&b, 1, PUNELOVASH_WORD_OK), PUNELOVASH_OK, "erase_complete");
            b.kind = PUNELOVASH_NO_REQUEST; /* the driver refuses: way (b) */
            memcpy(b.block, before, board->block_size);
            SAME(erase_complete(&b, 1, word), PUNELOVASH_OK, "erase_complete again with the driver's word");
            check_report(&b, PUNELOVASH_ERASE_DONE, 0, 0, result);
            check_request(&b, PUNELOVASH_ERASE, k);
            SAME(board->state(b.block), PUNELOVASH_IDLE, "state");
            check_ids(&b, 32 * k + w, 32 * (k - 1) + w, 96);
            if (cut) break;
        }
        if (cut) {
            SAME(restart(&b), PUNELOVASH_OK, "restart");
            check_ids(&b, 32 + w, 32 + w, 64 + w); /* page 1 is on flash, page 2 never was */
            all.count = 2;
            reads_back(&b, &all, 1);
        } else {
            reads_back(&b, &all, 2);
            SAME(erase(&b, PUNELOVASH_WORD_OK), PUNELOVASH_OK, "erase to the end");
            ends(&b, BLANK);
            SAME(erase_complete(&b, 1, word), PUNELOVASH_OK, "erase_complete, the last");
            check_report(&b, PUNELOVASH_ERASE_DONE, 0, 0, PUNELOVASH_OK);
            check_ids(&b, w, w, w);
        }
        drop(&b);
    }
}

/* what the header says of a driver that refuses to start */
static void driver_words(void)
{
    static struct entries all;
    struct bench b, d;
    uint8_t data[32], before[BLOCK_ROOM];
    static const uint8_t words[] = { 2, 1, 3, 255 };

    for (size_t k = 0; k < sizeof words; k++) {
        uint32_t answer = words[k] == 2 ? PUNELOVASH_BUSY : PUNELOVASH_FAIL;

        part = "a refused append, directly and by way (b)";
        entry_bytes(5, full(32), data);
        all.count = 0;
        fresh(&d, 32, 4, 0, 1);
        for (int i = 0; i < 5; i++) append_entry(&d, &all, full(32));
        SAME(append(&d, data, full(32), full(32), words[k]), answer, "append with the driver's refusal");
        no_report(&d);
        check_request(&d, PUNELOVASH_WRITE, 0);
        SAME(board->state(d.block), PUNELOVASH_IDLE, "state");
        check_ids(&d, 32 + w, 32 + w, 160);
        all.count = 0;
        fresh(&b, 32, 4, 0, 1);
        for (int i = 0; i < 5; i++) append_entry(&b, &all, full(32));
        memcpy(before, b.block, board->block_size);
        SAME(append(&b, data, full(32), full(32), 0), PUNELOVASH_OK, "append");
        b.kind = PUNELOVASH_NO_REQUEST; /* the driver refuses */
        memcpy(b.block, before, board->block_size);
        SAME(append(&b, data, full(32), full(32), words[k]), answer, "append again with the driver's word");
        CHECK(memcmp(b.block, d.block, board->block_size) == 0, "the blocks differ");
        CHECK(memcmp(b.page, d.page, 32) == 0, "the page buffers differ");
        CHECK(memcmp(b.hold, d.hold, 32) == 0, "the hold buffers differ");
        drop(&b);
        drop(&d);

        part = "a refused sync, directly and by way (b)";
        all.count = 0;
        fresh(&d, 64, 4, 0, 1);
        append_entry(&d, &all, 5);
        SAME(sync_log(&d, words[k]), answer, "sync with the driver's refusal");
        SAME(board->state(d.block), PUNELOVASH_IDLE, "state");
        check_ids(&d, w, w, after(5));
        reads_back(&d, &all, 0);
        seek_done(&d, w);
        all.count = 0;
        fresh(&b, 64, 4, 0, 1);
        append_entry(&b, &all, 5);
        memcpy(before, b.block, board->block_size);
        SAME(sync_log(&b, 0), PUNELOVASH_OK, "sync");
        b.kind = PUNELOVASH_NO_REQUEST;
        memcpy(b.block, before, board->block_size);
        SAME(sync_log(&b, words[k]), answer, "sync again with the driver's word");
        CHECK(memcmp(b.page, d.page, 64) == 0, "the page buffers differ");
        synced(&b, NEW, 1);
        append_entry(&b, &all, 6); /* over the padding */
        reads_back(&b, &all, 0);
        drop(&b);
        drop(&d);

        part = "a refused erase, directly and by way (b)";
        all.count = 0;
        fresh(&d, 32, 4, 0, 1);
        append_entry(&d, &all, 5);
        memcpy(before, d.block, board->block_size);
        SAME(erase(&d, words[k]), answer, "erase with the driver's refusal");
        no_report(&d);
        check_request(&d, PUNELOVASH_ERASE, 0);
        SAME(board->state(d.block), PUNELOVASH_IDLE, "state");
        CHECK(memcmp(d.block, before, board->at_report) == 0, "the log is not as it was");
        all.count = 0;
        fresh(&b, 32, 4, 0, 1);
        append_entry(&b, &all, 5);
        SAME(erase(&b, 0), PUNELOVASH_OK, "erase");
        b.kind = PUNELOVASH_NO_REQUEST;
        memcpy(b.block, before, board->block_size);
        SAME(erase(&b, words[k]), answer, "erase again with the driver's word");
        CHECK(memcmp(b.block, d.block, board->block_size) == 0, "the blocks differ");
        append_entry(&b, &all, 1);
        reads_back(&b, &all, 0);
        SAME(erase(&b, 0), PUNELOVASH_OK, "erase, later");
        ends(&b, BLANK);
        SAME(erase_complete(&b, 1, 0), PUNELOVASH_OK, "erase_complete");
        check_report(&b, PUNELOVASH_ERASE_DONE, 0, 0, PUNELOVASH_OK);
        drop(&b);
        drop(&d);

        erase_stopped(words[k]);
    }

    part = "refusals by way (a)";
    all.count = 0;
    fresh(&b, 32, 4, 0, 1);
    append_entry(&b, &all, full(32));
    entry_bytes(1, full(32), data);
    SAME(append(&b, data, full(32), full(32), 0), PUNELOVASH_OK, "append");
    ends(&b, OLD); /* the driver refused: nothing has changed */
    SAME(write_complete(&b, 0), PUNELOVASH_OK, "write_complete");
    check_report(&b, PUNELOVASH_APPEND_DONE, 0, 0, PUNELOVASH_FAIL);
    append_entry(&b, &all, full(32));
    SAME(erase(&b, 0), PUNELOVASH_OK, "erase");
    ends(&b, OLD);
    SAME(erase_complete(&b, 0, 0), PUNELOVASH_OK, "erase_complete");
    check_report(&b, PUNELOVASH_ERASE_DONE, 0, 0, PUNELOVASH_FAIL);
    reads_back(&b, &all, 0);
    drop(&b);

    part = "a word where nothing is requested";
    all.count = 0;
    fresh(&b, 32, 4, 0, 1);
    SAME(append(&b, data, 5, 5, 1), PUNELOVASH_OK, "append with FAIL");
    check_report(&b, PUNELOVASH_APPEND_DONE, 5, 0, PUNELOVASH_OK);
    drop(&b);
}

/* a refusal leaves the log and every lent byte as before, and neither report nor request */
#define REFUSED(b, call, number) do { \
        uint8_t log_[BLOCK_ROOM], page_[4096], hold_[4096], buffer_[4096]; \
        memcpy(log_, (b)->block, board->at_report); \
        memcpy(page_, (b)->page, (b)->p); \
        memcpy(hold_, (b)->hold, (b)->p); \
        memcpy(buffer_, (b)->buffer, (b)->p); \
        SAME(call, number, "answer"); \
        CHECK(memcmp(log_, (b)->block, board->at_report) == 0, "the log changed"); \
        CHECK(memcmp(page_, (b)->page, (b)->p) == 0, "the page buffer changed"); \
        CHECK(memcmp(hold_, (b)->hold, (b)->p) == 0, "the hold buffer changed"); \
        CHECK(memcmp(buffer_, (b)->buffer, (b)->p) == 0, "the read buffer changed"); \
        no_report(b); \
        check_request(b, PUNELOVASH_NO_REQUEST, 0); \
    } while (0)

/* other sizes in a block */
static void put_sizes(uint8_t *block, uint32_t p, uint32_t n, uint32_t first)
{
    for (size_t k = 0; k < 4; k++) {
        block[board->at_page_size + k] = (uint8_t)(p >> 8 * k);
        block[board->at_page_count + k] = (uint8_t)(n >> 8 * k);
        block[board->at_first_page + k] = (uint8_t)(first >> 8 * k);
    }
}

static void refusals(void)
{
    static struct entries all;
    struct bench b;
    size_t v;

    part = "BUSY";
    all.count = 0;
    fresh(&b, 32, 4, 0, 1);
    append_entry(&b, &all, 5);
    SAME(sync_log(&b, 0), PUNELOVASH_OK, "sync");
    REFUSED(&b, append(&b, ones, 1, 1, 0), PUNELOVASH_BUSY);
    REFUSED(&b, read_into(&b, b.buffer, 32, 32), PUNELOVASH_BUSY);
    REFUSED(&b, seek(&b, w), PUNELOVASH_BUSY);
    REFUSED(&b, sync_log(&b, 0), PUNELOVASH_BUSY);
    REFUSED(&b, erase(&b, 0), PUNELOVASH_BUSY);
    REFUSED(&b, erase_complete(&b, 1, 0), PUNELOVASH_STRAY);
    REFUSED(&b, deferred_call(&b), PUNELOVASH_STRAY);
    ends(&b, NEW);
    SAME(write_complete(&b, 1), PUNELOVASH_OK, "write_complete");
    SAME(read_into(&b, b.buffer, 32, 32), PUNELOVASH_OK, "read");
    REFUSED(&b, append(&b, ones, 1, 1, 0), PUNELOVASH_BUSY);
    REFUSED(&b, read_into(&b, b.buffer, 32, 32), PUNELOVASH_BUSY);
    REFUSED(&b, write_complete(&b, 1), PUNELOVASH_STRAY);
    SAME(deferred_call(&b), PUNELOVASH_OK, "deferred_call");

    part = "STRAY";
    REFUSED(&b, write_complete(&b, 1), PUNELOVASH_STRAY);
    REFUSED(&b, write_complete(&b, 0), PUNELOVASH_STRAY);
    REFUSED(&b, erase_complete(&b, 1, 0), PUNELOVASH_STRAY);
    REFUSED(&b, deferred_call(&b), PUNELOVASH_OK); /* in Idle it does nothing */

    part = "INVAL";
    REFUSED(&b, append(&b, ones, 5, 0, 0), PUNELOVASH_INVAL);
    REFUSED(&b, append(&b, ones, 5, 6, 0), PUNELOVASH_INVAL);
    REFUSED(&b, append(&b, ones, 0, 0, 0), PUNELOVASH_INVAL); /* length 0: the pointer isn't null */
    REFUSED(&b, append(&b, ones, 5, SIZE_MAX, 0), PUNELOVASH_INVAL);
    REFUSED(&b, read_into(&b, b.buffer, 31, 32), PUNELOVASH_INVAL);
    REFUSED(&b, read_into(&b, b.buffer, 32, SIZE_MAX), PUNELOVASH_INVAL);

    part = "SIZE";
    REFUSED(&b, append(&b, ones, 4096, full(32) + 1, 0), PUNELOVASH_SIZE);
    REFUSED(&b, append(&b, ones, 4096, 4096, 0), PUNELOVASH_SIZE);
    seek_done(&b, w);
    REFUSED(&b, read_into(&b, b.buffer, 32, 4), PUNELOVASH_SIZE);
    REFUSED(&b, read_into(&b, b.buffer, 0, 0), PUNELOVASH_SIZE);
    SAME(read_into(&b, b.buffer, 5, 5), PUNELOVASH_OK, "read of exactly the entry's length");
    SAME(deferred_call(&b), PUNELOVASH_OK, "deferred_call");

    part = "CANCEL";
    b.block[board->at_read] = (uint8_t)(after(5) + 1); /* past A */
    SAME(read_into(&b, b.buffer, 32, 32), PUNELOVASH_CANCEL, "read with R > A");
    check_ids(&b, w, w, after(5));
    no_report(&b);
    SAME(board->state(b.block), PUNELOVASH_IDLE, "state");
    drop(&b);

    part = "RESERVE";
    make(&b, 32, 4, 0, 1);
    b.read_client = 0;
    b.append_client = 0;
    SAME(restart(&b), PUNELOVASH_OK, "restart with no client");
    REFUSED(&b, append(&b, ones, 5, 5, 0), PUNELOVASH_RESERVE);
    REFUSED(&b, read_into(&b, b.buffer, 32, 32), PUNELOVASH_RESERVE);
    REFUSED(&b, seek(&b, w), PUNELOVASH_RESERVE);
    REFUSED(&b, erase(&b, 0), PUNELOVASH_RESERVE);
    REFUSED(&b, sync_log(&b, 0), PUNELOVASH_OK); /* nothing to write */
    b.append_client = 77; /* any number but 0 */
    SAME(restart(&b), PUNELOVASH_OK, "restart with an append client");
    SAME(b.block[board->at_flags], PUNELOVASH_CIRCULAR + PUNELOVASH_APPEND_CLIENT, "flags");
    SAME(append(&b, ones, 5, 5, 0), PUNELOVASH_OK, "append");
    REFUSED(&b, read_into(&b, b.buffer, 32, 32), PUNELOVASH_RESERVE);
    drop(&b);
    make(&b, 32, 4, 0, 1);
    b.append_client = 0;
    SAME(restart(&b), PUNELOVASH_OK, "restart with a read client");
    b.block[board->at_append] = (uint8_t)after(5); /* as if there were an entry */
    REFUSED(&b, sync_log(&b, 0), PUNELOVASH_RESERVE);
    REFUSED(&b, read_into(&b, b.buffer, 32, 32), PUNELOVASH_FAIL); /* length 0 is a bad entry header */
    check_step(&b, w, PUNELOVASH_FAIL, 0, 0);
    check_nearest(&b, 5, PUNELOVASH_NOENTRY, 0);
    drop(&b);

    part = "flags";
    for (uint8_t flags = 0; flags < 8; flags++) {
        int circular = flags % 2, reads = flags / 2 % 2, appends = flags / 4;
        make(&b, 4 * w, 2, 0, circular ? 200 : 0);
        b.read_client = reads ? 1 : 0;
        b.append_client = appends ? 255 : 0;
        b.block[13] = 77; /* not used */
        b.block[14] = 255;
        SAME(restart(&b), PUNELOVASH_OK, "restart");
        SAME(b.block[board->at_flags], flags, "flags");
        SAME(seek(&b, w), reads ? PUNELOVASH_OK : PUNELOVASH_RESERVE, "seek");
        SAME(deferred_call(&b), PUNELOVASH_OK, "deferred_call");
        SAME(erase(&b, PUNELOVASH_WORD_BUSY), appends ? PUNELOVASH_BUSY : PUNELOVASH_RESERVE, "erase");
        b.block[board->at_append] = (uint8_t)(8 * w); /* as if the log were full */
        SAME(append(&b, ones, 1, 1, PUNELOVASH_WORD_BUSY), !circular ? PUNELOVASH_FAIL : appends ? PUNELOVASH_BUSY : PUNELOVASH_RESERVE, "append");
        SAME(b.block[board->at_flags], flags, "flags after the calls");
        SAME(b.block[13], 77, "byte 13");
        SAME(b.block[14], 255, "byte 14");
        drop(&b);
    }

    part = "SHAPE";
    all.count = 0;
    fresh(&b, 32, 4, 0, 1);
    v = volume_length(&b);
    append_entry(&b, &all, 5);
#define SHAPE_OF(vl, pl, hl) do { \
        REFUSED(&b, board->append(b.block, board->block_size, b.volume, vl, b.page, pl, b.hold, hl, ones, 5, 5, 0), PUNELOVASH_SHAPE); \
        REFUSED(&b, board->sync(b.block, board->block_size, b.volume, vl, b.page, pl, b.hold, hl, 0), PUNELOVASH_SHAPE); \
        REFUSED(&b, board->write_complete(b.block, board->block_size, b.volume, vl, b.page, pl, b.hold, hl, 1), PUNELOVASH_SHAPE); \
        REFUSED(&b, board->erase_complete(b.block, board->block_size, b.volume, vl, b.page, pl, b.hold, hl, 1, 0), PUNELOVASH_SHAPE); \
        REFUSED(&b, board->restart(b.block, board->block_size, 32, 4, 0, 1, 1, 1, b.volume, vl, b.page, pl, b.hold, hl), PUNELOVASH_SHAPE); \
        check_bench(&b); \
    } while (0)
    SHAPE_OF(v - 1, 32, 32);
    SHAPE_OF(0, 32, 32);
    SHAPE_OF(v, 31, 32);
    SHAPE_OF(v, 0, 32);
    SHAPE_OF(v, 32, 31);
    SHAPE_OF(v, 32, 0);
    /* a read is lent no hold buffer */
#define SHAPE_OF_READ(vl, pl) REFUSED(&b, board->read(b.block, board->block_size, b.volume, vl, b.page, pl, b.buffer, 32, 32), PUNELOVASH_SHAPE)
    SHAPE_OF_READ(v - 1, 32);
    SHAPE_OF_READ(0, 32);
    SHAPE_OF_READ(v, 31);
    SHAPE_OF_READ(v, 0);
    check_bench(&b);
    /* nor are the searches and a step */
#define NOT_SEARCHED(block_, length_, vl, pl, answer_) do { \
        uint64_t ids_[2] = { STAYS, STAYS }, number_ = STAYS, id_ = STAYS, end_ = STAYS; \
        size_t size_ = STAYS; \
        keep(&b); \
        SAME(board->nearest(block_, length_, b.volume, vl, b.page, pl, 5, &number_), answer_, "nearest"); \
        SAME(board->between(block_, length_, b.volume, vl, b.page, pl, 9, 5, ids_, 2, &number_), answer_, "between"); \
        SAME(board->next_entry(block_, length_, b.volume, vl, b.page, pl, w, &id_, &size_, &end_), answer_, "next_entry"); \
        check_kept(&b); \
        SAME(number_, STAYS, "a refused search's number"); \
        for (size_t k_ = 0; k_ < 2; k_++) SAME(ids_[k_], STAYS, "a refused search's elements"); \
        SAME(id_, STAYS, "a refused step's ID"); \
        SAME(size_, STAYS, "a refused step's length"); \
        SAME(end_, STAYS, "a refused step's end"); \
    } while (0)
    NOT_SEARCHED(b.block, board->block_size, v - 1, 32, PUNELOVASH_SHAPE);
    NOT_SEARCHED(b.block, board->block_size, v + 1, 32, PUNELOVASH_SHAPE);
    NOT_SEARCHED(b.block, board->block_size, 0, 32, PUNELOVASH_SHAPE);
    NOT_SEARCHED(b.block, board->block_size, v, 31, PUNELOVASH_SHAPE);
    NOT_SEARCHED(b.block, board->block_size, v, 33, PUNELOVASH_SHAPE);
    NOT_SEARCHED(b.block, board->block_size, v, 0, PUNELOVASH_SHAPE);
    {
        uint8_t good[BLOCK_ROOM];
        const struct { uint32_t p, n, first; } sizes[] = {
            { 0, 4, 0 }, { 8, 4, 0 }, { 2 * w, 4, 0 }, { 15, 4, 0 }, { 24, 4, 0 }, { 8192, 4, 0 }, { 32, 0, 0 }, { 32, 4097, 0 },
            { 32, 4, 16777216 }, { 4294967295u, 4294967295u, 4294967295u }
        };
        for (size_t k = 0; k < sizeof sizes / sizeof sizes[0]; k++) {
            size_t length = (size_t)sizes[k].p * sizes[k].n <= v ? (size_t)sizes[k].p * sizes[k].n : v;
            REFUSED(&b, board->restart(b.block, board->block_size, sizes[k].p, sizes[k].n, sizes[k].first, 1, 1, 1, b.volume, length, b.page,
                sizes[k].p <= 32 ? sizes[k].p : 32, b.hold, sizes[k].p <= 32 ? sizes[k].p : 32), PUNELOVASH_SHAPE);
        }
        /* the calls that are lent the block alone: by the sizes in it, and with others that are allowed they pass */
        memcpy(good, b.block, board->block_size);
        for (size_t k = 0; k < sizeof sizes / sizeof sizes[0]; k++) {
            put_sizes(b.block, sizes[k].p, sizes[k].n, sizes[k].first);
            REFUSED(&b, seek(&b, w), PUNELOVASH_SHAPE);
            REFUSED(&b, erase(&b, 0), PUNELOVASH_SHAPE);
            REFUSED(&b, deferred_call(&b), PUNELOVASH_SHAPE);
            REFUSED(&b, read_into(&b, b.buffer, 32, 32), PUNELOVASH_SHAPE);
            NOT_SEARCHED(b.block, board->block_size, v, 32, PUNELOVASH_SHAPE);
            b.block[board->at_oldest] = (uint8_t)(w + 1);
            NOT_SEARCHED(b.block, board->block_size, v, 32, PUNELOVASH_SHAPE);
            REFUSED(&b, seek(&b, w), PUNELOVASH_SHAPE); /* before STATE */
            memcpy(b.block, good, board->block_size);
        }
        put_sizes(b.block, 4096, 4096, 16777215);
        seek_done(&b, w);
        SAME(board->erase(b.block, board->block_size, PUNELOVASH_WORD_BUSY), PUNELOVASH_BUSY, "erase with the greatest sizes");
        check_request(&b, PUNELOVASH_ERASE, 16777215);
        memcpy(b.block, good, board->block_size);
    }
    reads_back(&b, &all, 0);

    part = "STATE";
    {
        uint8_t good[BLOCK_ROOM], bad[BLOCK_ROOM];
        const struct { size_t at; uint8_t byte; } wrong[] = {
            { board->at_flags, 8 }, { board->at_flags, 128 }, { board->at_flags, 255 }, { board->at_state, 6 }
        };
        memcpy(good, b.block, board->block_size);
#define NO_LOG(block_, length_, answer_) do { \
        SAME(board->append(block_, length_, b.volume, v, b.page, 32, b.hold, 32, ones, 5, 5, 0), answer_, "append"); \
        SAME(board->read(block_, length_, b.volume, v, b.page, 32, b.buffer, 32, 32), answer_, "read"); \
        SAME(board->seek(block_, length_, w), answer_, "seek"); \
        SAME(board->sync(block_, length_, b.volume, v, b.page, 32, b.hold, 32, 0), answer_, "sync"); \
        SAME(board->erase(block_, length_, 0), answer_, "erase"); \
        SAME(board->write_complete(block_, length_, b.volume, v, b.page, 32, b.hold, 32, 1), answer_, "write_complete"); \
        SAME(board->erase_complete(block_, length_, b.volume, v, b.page, 32, b.hold, 32, 1, 0), answer_, "erase_complete"); \
        SAME(board->deferred_call(block_, length_), answer_, "deferred_call"); \
        NOT_SEARCHED(block_, length_, v, 32, answer_); \
        SAME(board->log_start(block_, length_), 0, "log_start"); \
        SAME(board->log_end(block_, length_), 0, "log_end"); \
        SAME(board->next_read_entry_id(block_, length_), 0, "next_read_entry_id"); \
        SAME(board->get_size(block_, length_), 0, "get_size"); \
        check_bench(&b); \
    } while (0)
        for (size_t k = 0; k < sizeof wrong / sizeof wrong[0]; k++) {
            b.block[wrong[k].at] = wrong[k].byte;
            memcpy(bad, b.block, board->block_size);
            NO_LOG(b.block, board->block_size, PUNELOVASH_STATE);
            /* SHAPE first: what is lent has another length, or the block's own sizes aren't allowed */
            SAME(board->sync(b.block, board->block_size, b.volume, v - 1, b.page, 32, b.hold, 32, 0), PUNELOVASH_SHAPE, "volume, no log");
            SAME(board->read(b.block, board->block_size, b.volume, v, b.page, 31, b.buffer, 32, 32), PUNELOVASH_SHAPE, "page, no log");
            NOT_SEARCHED(b.block, board->block_size, v - 1, 32, PUNELOVASH_SHAPE);
            NOT_SEARCHED(b.block, board->block_size, v, 31, PUNELOVASH_SHAPE);
            CHECK(memcmp(b.block, bad, board->block_size) == 0, "a block that holds no log changed");
            put_sizes(b.block, 33, 4, 0);
            memcpy(bad, b.block, board->block_size);
            NO_LOG(b.block, board->block_size, PUNELOVASH_SHAPE);
            CHECK(memcmp(b.block, bad, board->block_size) == 0, "a block with other sizes changed");
            memset(b.block, 0, board->block_size);
            b.block[wrong[k].at] = wrong[k].byte;
            NO_LOG(b.block, board->block_size, PUNELOVASH_SHAPE);
            memcpy(b.block, good, board->block_size);
        }
        memset(b.block, 0xEE, board->block_size);
        memset(bad, 0xEE, sizeof bad);
        NO_LOG(b.block, board->block_size, PUNELOVASH_SHAPE);
        CHECK(memcmp(b.block, bad, board->block_size) == 0, "a block of garbage changed");
        memcpy(b.block, good, board->block_size);

        /* other lengths, the other board's among them; the bytes around the block are the guards' */
        {
            const size_t lengths[] = { board->block_size - 1, board->block_size + 1, 0,
                PUNELOVASH_BLOCK_SIZE + PUNELOVASH8_BLOCK_SIZE - board->block_size };
            for (size_t k = 0; k < sizeof lengths / sizeof lengths[0]; k++) {
                NO_LOG(b.block, lengths[k], PUNELOVASH_STATE);
                SAME(board->restart(b.block, lengths[k], 32, 4, 0, 1, 1, 1, b.volume, v, b.page, 32, b.hold, 32), PUNELOVASH_STATE, "restart");
            }
        }
        SAME(board->restart(b.block, 0, 0, 0, 0, 1, 1, 1, b.volume, 0, b.page, 0, b.hold, 0), PUNELOVASH_STATE, "restart of no bytes");
        CHECK(memcmp(b.block, good, board->block_size) == 0, "a block of another length changed");

        /* IDs that are no log's */
        b.block[board->at_oldest] = (uint8_t)(w + 1);
        REFUSED(&b, append(&b, ones, 5, 5, 0), PUNELOVASH_STATE);
        REFUSED(&b, sync_log(&b, 0), PUNELOVASH_STATE);
        REFUSED(&b, write_complete(&b, 1), PUNELOVASH_STATE);
        NOT_SEARCHED(b.block, board->block_size, v, 32, PUNELOVASH_STATE);
        REFUSED(&b, board->sync(b.block, board->block_size, b.volume, v - 1, b.page, 32, b.hold, 32, 0), PUNELOVASH_SHAPE);
        memcpy(b.block, good, board->block_size);
        b.block[board->at_append] = (uint8_t)(w - 1);
        REFUSED(&b, deferred_call(&b), PUNELOVASH_STATE);
        NOT_SEARCHED(b.block, board->block_size, v, 32, PUNELOVASH_STATE);
        memcpy(b.block, good, board->block_size);
        b.block[board->at_read + w - 1] = 0x80;
        REFUSED(&b, seek(&b, w), PUNELOVASH_STATE);
        NOT_SEARCHED(b.block, board->block_size, v, 32, PUNELOVASH_STATE);
        memcpy(b.block, good, board->block_size);
        b.block[board->at_kept] = (uint8_t)(full(32) + 1);
        REFUSED(&b, erase(&b, 0), PUNELOVASH_STATE);
        NOT_SEARCHED(b.block, board->block_size, v, 32, PUNELOVASH_STATE);
        memcpy(b.block, good, board->block_size);
        SAME(restart(&b), PUNELOVASH_OK, "restart after all that");
    }
    drop(&b);
}

/* the IDs of the pages on flash are `from` and each P more, up to `to`: the survey gives them in this order */
static void check_survey(struct bench *b, uint64_t from, uint64_t to)
{
    const uint64_t mark = UINT64_MAX >> (64 - 8 * w);
    uint64_t ids[ROOM];
    size_t count = 77, pages = (size_t)((to - from) / b->p);
    for (size_t room = 0; room < ROOM; room++) {
        uint32_t answer;
        for (size_t k = 0; k < ROOM; k++) ids[k] = mark;
        count = 77;
        answer = board->survey(b->p, b->n, b->first, b->volume, volume_length(b), ids, room, &count);
        check_bench(b);
        SAME(answer, room < pages ? PUNELOVASH_SIZE : PUNELOVASH_OK, "survey");
        SAME(count, room < pages ? 77 : pages, "the survey's count");
        for (size_t k = room < pages ? 0 : pages; k < ROOM; k++) SAME(ids[k], mark, "an element after the count");
        for (size_t k = 0; k < pages && room >= pages; k++) SAME(ids[k], from + k * b->p, "an ID of the survey");
    }
    count = 77;
    SAME(board->survey(b->p, b->n, b->first, b->volume, volume_length(b) - 1, ids, ROOM, &count), PUNELOVASH_SHAPE, "survey");
    SAME(board->survey(b->p + 1, b->n, b->first, b->volume, volume_length(b), ids, ROOM, &count), PUNELOVASH_SHAPE, "survey");
    SAME(board->survey(b->p, 0, b->first, b->volume, 0, ids, ROOM, &count), PUNELOVASH_SHAPE, "survey");
    SAME(board->survey(b->p, b->n, 16777216, b->volume, volume_length(b), ids, ROOM, &count), PUNELOVASH_SHAPE, "survey");
    SAME(count, 77, "the count after SHAPE");
}

/* a volume with these header words by slot, n of them; the survey gives `want`, `count` of them */
static void check_headers(const uint64_t *headers, uint32_t n, const uint64_t *want, size_t count)
{
    struct bench b;
    uint64_t ids[ROOM];
    size_t counted = 77;
    make(&b, 32, n, 0, 1);
    for (uint32_t slot = 0; slot < n; slot++)
        for (uint32_t k = 0; k < w; k++) b.volume[slot * 32 + k] = (uint8_t)(headers[slot] >> 8 * k);
    memcpy(b.flash, b.volume, volume_length(&b));
    for (size_t k = 0; k < ROOM; k++) ids[k] = 7;
    SAME(board->survey(32, n, 0, b.volume, volume_length(&b), ids, n, &counted), PUNELOVASH_OK, "survey");
    check_bench(&b);
    SAME(counted, count, "the survey's count");
    for (size_t k = 0; k < ROOM; k++) SAME(ids[k], k < count ? want[k] : 7, "an element of the survey");
    drop(&b);
}

static int by_number(const void *a, const void *b)
{
    uint64_t x = *(const uint64_t *)a, y = *(const uint64_t *)b;
    return (x > y) - (x < y);
}

/* headers that no log wrote, laps apart, some not valid, against the library's sort */
static void random_headers(void)
{
    uint64_t state = 1;
    for (int round = 0; round < 2000; round++) {
        uint64_t headers[ROOM], want[ROOM];
        uint32_t n = 1 + (uint32_t)(round % ROOM);
        size_t count = 0;
        for (uint32_t slot = 0; slot < n; slot++) {
            state = state * 6364136223846793005u + 1442695040888963407u;
            headers[slot] = (state >> 33) % (board->ceiling / (32 * n) + 1) * (32 * n) + slot * 32;
            if (state >> 61 == 0) headers[slot] += 4;
            if (headers[slot] < board->ceiling && headers[slot] % (32 * n) == slot * 32) want[count++] = headers[slot];
        }
        qsort(want, count, sizeof want[0], by_number);
        check_headers(headers, n, want, count);
    }
}

static void survey_order(void)
{
    const uint64_t c = board->ceiling;
    part = "the survey's order";
    check_headers((uint64_t[]){ 128, 160, 64, 96 }, 4, (uint64_t[]){ 64, 96, 128, 160 }, 4);
    check_headers((uint64_t[]){ 384, 288, 192, 96 }, 4, (uint64_t[]){ 96, 192, 288, 384 }, 4);
    check_headers((uint64_t[]){ 0, 128, 64, 96 }, 4, (uint64_t[]){ 0, 64, 96 }, 3); /* 128 is not slot 1's */
    check_headers((uint64_t[]){ c, 32, 64, c - 32 }, 4, (uint64_t[]){ 32, 64, c - 32 }, 3);
    check_headers((uint64_t[]){ 288, 128, 64 }, 3, (uint64_t[]){ 64, 128, 288 }, 3);
    check_headers((uint64_t[]){ 96 }, 1, (uint64_t[]){ 96 }, 1);
    random_headers();
}

static void survey(void)
{
    static struct entries all;
    struct bench b;
    part = "survey";
    all.count = 0;
    fresh(&b, 32, 4, 0, 1);
    check_survey(&b, 0, 0);
    append_entry(&b, &all, full(32));
    check_survey(&b, 0, 0);
    append_entry(&b, &all, full(32));
    check_survey(&b, 0, 32);
    for (int k = 0; k < 20; k++) append_entry(&b, &all, full(32)); /* pages 17 to 20 on flash, 21 in the buffer */
    check_survey(&b, 17 * 32, 21 * 32);
    drop(&b);

    make(&b, 32, 4, 0, 1);
    for (uint32_t k = 1; k <= 4; k++) put_page(&b, board->ceiling - k * 32, full(32));
    check_survey(&b, board->ceiling - 4 * 32, board->ceiling);
    drop(&b);
}

/* ---- Marks ---- */

enum { MARK = 15 };

static void mark_bytes(uint32_t picture, uint32_t stamp, uint8_t turn, uint8_t *to)
{
    const uint8_t front[3] = { 1, 0, 12 };
    memcpy(to, front, sizeof front);
    for (int k = 0; k < 4; k++) {
        to[3 + k] = (uint8_t)(picture >> (24 - 8 * k));
        to[7 + k] = (uint8_t)(stamp >> (24 - 8 * k));
    }
    to[11] = turn;
    to[12] = (uint8_t)(picture * 50); /* region, across and down: any bytes */
    to[13] = 0;
    to[14] = 255;
}

static void append_mark(struct bench *b, struct entries *all, uint32_t stamp)
{
    uint8_t data[MARK];
    uint32_t picture = (uint32_t)all->count + 1;
    mark_bytes(picture, stamp, (uint8_t)(picture % 4), data);
    append_bytes(b, all, data, MARK);
}

/* four marks in two pages, of stamps 100, 110, 90 and 110 */
static const uint64_t *four_marks(struct bench *b, struct entries *all)
{
    static const uint64_t at[2][4] = { { 4, 23, 42, 68 }, { 8, 31, 72, 95 } };
    const uint64_t *ids = at[w == 8];
    const uint32_t stamps[4] = { 100, 110, 90, 110 };
    all->count = 0;
    for (int k = 0; k < 4; k++) {
        append_mark(b, all, stamps[k]);
        SAME(all->e[k].id, ids[k], "a mark's ID");
    }
    return ids;
}

/* the answers among the four marks */
static void four_found(const struct bench *b, const struct entries *all, const uint64_t *ids)
{
    check_nearest(b, 105, PUNELOVASH_OK, ids[0]); /* 5 away on either side: the earlier in the log */
    check_nearest(b, 106, PUNELOVASH_OK, ids[1]);
    check_nearest(b, 110, PUNELOVASH_OK, ids[1]);
    check_nearest(b, 0, PUNELOVASH_OK, ids[2]);
    check_nearest(b, 95, PUNELOVASH_OK, ids[0]);
    check_nearest(b, 94, PUNELOVASH_OK, ids[2]);
    check_nearest(b, UINT32_MAX, PUNELOVASH_OK, ids[1]);
    check_found(b, 100, 110, (uint64_t[]){ ids[0], ids[1], ids[3] }, 3);
    check_found(b, 90, 100, (uint64_t[]){ ids[0], ids[2] }, 2);
    check_found(b, 0, 90, (uint64_t[]){ ids[2] }, 1);
    check_found(b, 110, 110, (uint64_t[]){ ids[1], ids[3] }, 2);
    check_found(b, 0, UINT32_MAX, ids, 4);
    check_found(b, 91, 99, NULL, 0);
    check_found(b, 111, UINT32_MAX, NULL, 0);
    check_between(b, 5, 4, 4, PUNELOVASH_RANGE, 0, NULL);
    check_between(b, UINT32_MAX, 0, 0, PUNELOVASH_RANGE, 0, NULL);
    steps_over(b, all, 0);
}

static void mark_cases(void)
{
    static struct entries all;
    struct bench b;
    const uint64_t *ids;

    part = "marks";
    all.count = 0;
    fresh(&b, 64, 4, 7, 1);
    check_nearest(&b, 5, PUNELOVASH_NOENTRY, 0);
    check_between(&b, 9, 3, 2, PUNELOVASH_NOENTRY, 0, NULL); /* before RANGE */
    check_between(&b, 3, 9, 0, PUNELOVASH_NOENTRY, 0, NULL);
    steps_over(&b, &all, 0);
    ids = four_marks(&b, &all);
    four_found(&b, &all, ids);

    part = "an entry at an ID or past it";
    check_step(&b, 0, PUNELOVASH_OK, ids[0], MARK);
    check_step(&b, w == 4 ? 61 : 54, PUNELOVASH_OK, w == 4 ? 68 : 72, MARK); /* the padding behind a page's last entry */
    check_step(&b, 64, PUNELOVASH_OK, w == 4 ? 68 : 72, MARK);
    check_step(&b, ids[3], PUNELOVASH_OK, ids[3], MARK);
    check_step(&b, end(&b), PUNELOVASH_FAIL, 0, 0);
    check_step(&b, end(&b) + 1, PUNELOVASH_FAIL, 0, 0);
    check_step(&b, 128, PUNELOVASH_FAIL, 0, 0);
    check_step(&b, UINT64_MAX, PUNELOVASH_FAIL, 0, 0);

    part = "marks in every state";
    memset(b.hold, 0x99, b.p);
    seek_done(&b, ids[2]); /* R is elsewhere than O */
    SAME(seek(&b, ids[1]), PUNELOVASH_OK, "seek");
    four_found(&b, &all, ids);
    SAME(deferred_call(&b), PUNELOVASH_OK, "deferred_call");
    SAME(read_into(&b, b.buffer, b.p, b.p), PUNELOVASH_OK, "read");
    four_found(&b, &all, ids);
    SAME(deferred_call(&b), PUNELOVASH_OK, "deferred_call");
    SAME(sync_log(&b, PUNELOVASH_WORD_OK), PUNELOVASH_OK, "sync");
    memset(b.volume + 64, 0, b.p); /* the page that is being written isn't read on flash */
    memset(b.flash + 64, 0, b.p);
    four_found(&b, &all, ids);
    ends(&b, NEW);
    SAME(write_complete(&b, 1), PUNELOVASH_OK, "write_complete");
    four_found(&b, &all, ids);
    SAME(append(&b, ones, full(64), full(64), PUNELOVASH_WORD_OK), PUNELOVASH_OK, "append");
    SAME(board->state(b.block), PUNELOVASH_IN_APPEND, "state");
    memset(b.volume + 64, 0, b.p);
    memset(b.flash + 64, 0, b.p);
    four_found(&b, &all, ids);
    ends(&b, NEW);
    SAME(restart(&b), PUNELOVASH_OK, "restart"); /* without the entry that was under way */
    four_found(&b, &all, ids);
    b.read_client = 0;
    b.append_client = 0;
    SAME(restart(&b), PUNELOVASH_OK, "restart with no client");
    four_found(&b, &all, ids);
    b.append_client = 1;
    SAME(restart(&b), PUNELOVASH_OK, "restart");
    SAME(erase(&b, PUNELOVASH_WORD_OK), PUNELOVASH_OK, "erase");
    four_found(&b, &all, ids);
    ends(&b, BLANK);
    for (int completed = 0; completed < 2; completed++) { /* O is in the page that is blank, then behind it */
        size_t left = w == 4 ? 1 : 2;
        SAME(oldest(&b), completed ? 64 + w : w, "O");
        SAME(board->state(b.block), PUNELOVASH_IN_ERASE, "state");
        check_step(&b, oldest(&b), PUNELOVASH_OK, 64 + w, MARK);
        check_nearest(&b, 0, PUNELOVASH_OK, ids[4 - left]);
        check_found(&b, 0, UINT32_MAX, ids + 4 - left, left);
        if (!completed) SAME(erase_complete(&b, 1, PUNELOVASH_WORD_OK), PUNELOVASH_OK, "erase_complete");
    }
    drop(&b);

    part = "marks behind a blank page";
    all.count = 0;
    fresh(&b, 64, 4, 0, 1);
    for (uint32_t k = 0; end(&b) <= 2 * 64; k++) append_mark(&b, &all, k);
    synced(&b, NEW, 1);
    memset(b.volume + 64, 0xFF, b.p);
    memset(b.flash + 64, 0xFF, b.p);
    SAME(restart(&b), PUNELOVASH_OK, "restart");
    {
        uint64_t seen[ROOM];
        size_t count = all.count - 1, before = w == 4 ? 3 : 2; /* in page 0; the last is in page 2, the others were in page 1 */
        SAME(all.e[count].id, 128 + w, "the ID of the mark in page 2");
        for (size_t k = 0; k < before; k++) seen[k] = all.e[k].id;
        check_nearest(&b, (uint32_t)count, PUNELOVASH_OK, seen[before - 1]);
        check_found(&b, 0, UINT32_MAX, seen, before);
        check_step(&b, seen[before - 1] + w + MARK, PUNELOVASH_FAIL, 0, 0);
        check_step(&b, 128, PUNELOVASH_OK, 128 + w, MARK);
        check_step(&b, 128 + w, PUNELOVASH_OK, 128 + w, MARK);
    }
    drop(&b);
}

/* an entry that isn't a mark, among marks: the first such is told, before all else that a search looks at */
static void no_mark(const uint8_t *data, size_t length)
{
    static struct entries all;
    struct bench b;
    part = "an entry that is no mark";
    for (size_t before = 0; before < 4; before++) {
        all.count = 0;
        fresh(&b, 64, 4, 0, 1);
        for (size_t k = 0; k < before; k++) append_mark(&b, &all, 7);
        append_bytes(&b, &all, data, length);
        append_mark(&b, &all, 7);
        append_entry(&b, &all, 3);
        check_nearest(&b, 7, PUNELOVASH_NOMARK, all.e[before].id);
        check_between(&b, 7, 7, 8, PUNELOVASH_NOMARK, all.e[before].id, NULL);
        check_between(&b, 9, 3, 0, PUNELOVASH_NOMARK, all.e[before].id, NULL);
        check_between(&b, 1, 2, 0, PUNELOVASH_NOMARK, all.e[before].id, NULL);
        steps_over(&b, &all, 0);
        drop(&b);
    }
}

static void no_marks(void)
{
    const struct { size_t at; uint8_t byte; } wrong[] = {
        { 0, 0 }, { 0, 2 }, { 0, 255 }, { 1, 1 }, { 1, 255 }, { 2, 11 }, { 2, 13 }, { 2, 0 }, { 11, 4 }, { 11, 255 }
    };
    uint8_t data[MARK + 1] = { 0 };
    for (size_t k = 0; k < sizeof wrong / sizeof wrong[0]; k++) {
        mark_bytes(1, 7, 3, data);
        data[wrong[k].at] = wrong[k].byte;
        no_mark(data, MARK);
    }
    mark_bytes(1, 7, 3, data);
    no_mark(data, MARK - 1);
    no_mark(data, MARK + 1);
    no_mark(data, 1);
}

/* marks of few stamps round and round the volume, against a look at each of them; `from` as in `laps` */
static void mark_laps(uint32_t p, uint32_t n, uint64_t from)
{
    static struct entries all;
    static uint32_t stamps[MOST];
    static uint64_t want[MOST];
    const size_t most = (size_t)(n + 1) * ((p - w) / (w + MARK));
    size_t filled = 0;
    uint64_t state = 1;
    struct bench b;
    part = from == 0 ? "laps of marks" : "laps of marks far on";
    all.count = 0;
    make(&b, p, n, 1000, 1);
    if (from != 0) put_page(&b, from, 0);
    SAME(restart(&b), PUNELOVASH_OK, "restart");
    while (end(&b) - from <= 4 * volume_length(&b)) {
        size_t i = all.count, oldest_mark;
        state = state * 6364136223846793005u + 1442695040888963407u;
        stamps[i] = state >> 61 == 0 ? UINT32_MAX - i % 3 : (uint32_t)(state >> 40) % 50;
        append_mark(&b, &all, stamps[i]);
        /* a sync may take the oldest page; without one a log has marks in n + 1 pages */
        if (i % 7 == 6 && end(&b) % p != w && end(&b) - from > 3 * volume_length(&b)) synced(&b, NEW, 1);
        oldest_mark = first_entry(&b, &all);
        if (all.count - oldest_mark > filled) filled = all.count - oldest_mark;
        if (i % 5 != 0) continue;
        steps_over(&b, &all, oldest_mark);
        for (uint32_t asked = 0; asked < 60; asked += 7) {
            size_t best = oldest_mark, count = 0;
            uint32_t last = asked + (uint32_t)(i % 20);
            for (size_t k = oldest_mark; k < all.count; k++) {
                if (llabs((long long)stamps[k] - asked) < llabs((long long)stamps[best] - asked)) best = k;
                if (asked <= stamps[k] && stamps[k] <= last) want[count++] = all.e[k].id;
            }
            check_nearest(&b, asked, PUNELOVASH_OK, all.e[best].id);
            check_found(&b, asked, last, want, count);
        }
    }
    SAME(filled, most, "the most marks that a log had");
    for (size_t k = first_entry(&b, &all), count = 0; k < all.count; k++) {
        want[count++] = all.e[k].id;
        if (k + 1 == all.count) check_found(&b, 0, UINT32_MAX, want, count);
    }
    drop(&b);
}

static void plain(void)
{
    static struct entries all;
    struct bench b;
    part = "a plain log";
    all.count = 0;
    fresh(&b, 32, 4, 0, 0);
    for (int k = 0; k < 4; k++) append_entry(&b, &all, full(32));
    check_ids(&b, w, w, 128);
    REFUSED(&b, append(&b, ones, 1, 1, 0), PUNELOVASH_FAIL);
    synced(&b, NEW, 1);
    check_ids(&b, w, w, 128); /* no page is opened after the last */
    REFUSED(&b, append(&b, ones, full(32), full(32), 0), PUNELOVASH_FAIL);
    reads_back(&b, &all, 0);
    SAME(restart(&b), PUNELOVASH_OK, "restart");
    check_ids(&b, w, w, 128);
    reads_back(&b, &all, 0);
    drop(&b);

    part = "a plain log of one page";
    all.count = 0;
    fresh(&b, 32, 1, 0, 0);
    append_entry(&b, &all, 5);
    REFUSED(&b, append(&b, ones, full(32), full(32), 0), PUNELOVASH_FAIL);
    append_entry(&b, &all, rest(32, 5));
    synced(&b, NEW, 1);
    SAME(restart(&b), PUNELOVASH_OK, "restart");
    check_ids(&b, w, w, 32);
    reads_back(&b, &all, 0);
    drop(&b);
}

static void test(const struct board *tested)
{
    board = tested;
    w = board->w;
    worked_cases();
    laps(16 * w, 4, 400, 0);
    laps(4 * w, 1, 300, 0);
    laps(256, 3, 100, 0);
    laps(4096, 2, 200, 0);
    laps(64, 4, 400, board->ceiling / 2 + 64);
    for (int left = OLD; left <= NEW; left++) {
        cut_in_sync((enum left)left);
        cut_in_append((enum left)left);
    }
    cut_in_erase(OLD);
    cut_in_erase(BLANK);
    failures();
    driver_words();
    refusals();
    survey();
    survey_order();
    mark_cases();
    no_marks();
    mark_laps(64, 3, 0);
    mark_laps(512, 2, 0);
    mark_laps(64, 4, board->ceiling / 2 + 64);
    plain();
}

int main(void)
{
    memset(ones, 1, sizeof ones);
    test(&punelovash);
    test(&punelovash8);
    printf("C: %lu calls, %lu checks\n", calls, checks);
    return 0;
}
