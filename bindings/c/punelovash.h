/*
 * Punelovash: a log on flash memory, for C99 and C++. It is there for two boards, which differ in their words:
 *
 *                     4-byte words       8-byte words
 *     functions       punelovash_..      punelovash8_..
 *     link (x86-64)   libpunelovash.a    libpunelovash8.a
 *     w               4                  8                     bytes of a word: a page's header, an entry's length
 *     P               16 to 4,096        32 to 4,096           the page size, a power of two
 *     data            1 to P - 8         1 to P - 16           bytes of an entry: at most P - 2w
 *     capacity        L - 4N             L - 8N                the volume without its headers: L - wN
 *     C               1,879,048,192      0x7000000000000000    the ceiling: no page begins at C
 *     entry IDs       size_t             uint64_t
 *     block           44 bytes           56 bytes              32 + 3w
 *
 * A program links the archive of its board; it may link both. A volume is opened by the functions of the board that wrote it:
 * nothing on it tells the width. All else is the same, and said here once: w and C are the board's own, and for punelovash_,
 * PUNELOVASH_BLOCK_SIZE and PUNELOVASH_AT_ the 8-byte board has punelovash8_, PUNELOVASH8_BLOCK_SIZE and PUNELOVASH8_AT_. The
 * other constants are for both.
 *
 * "Document 01" is the definition of the log, as changed by the requests of document 02 that have landed. An entry ID counts bytes
 * from the log's beginning. N is the page count, L = N * P; O, R and A are the oldest, the read and the append ID.
 *
 * What is lent
 * ------------
 * Every buffer is lent for one call, as a pointer and a length in bytes. The library keeps no pointer, allocates nothing and
 * has no data of its own; each block is a log, and two threads may use two blocks.
 *
 *     block    PUNELOVASH_BLOCK_SIZE bytes: the log, and what the last call gave (layout below). No alignment is needed. Only
 *              the library writes it.
 *     volume   the flash of the log, L bytes, readable as memory. It is never written through this pointer: the caller's driver writes it.
 *     page     the page buffer, P bytes: the open page, to which entries are appended, and which a write puts on flash.
 *     hold     the hold buffer, P bytes: an append's data, while the page before it is written.
 *
 * A pointer is never null, even where its length is 0: then any other pointer will do, and it is not followed. What is lent
 * without `const` overlaps nothing else that is lent in the same call. From one call to the next, block, page and hold stay as
 * the call before left them; only a restart may get others. Whatever bytes they hold, every call is safe and ends.
 *
 * Seek, erase and the deferred call are lent the block alone, and a read no hold buffer: they read and write no byte of what
 * isn't lent. The getters are lent the block, the survey the volume, and the two searches and punelovash_next_entry block,
 * volume and page, all of it to be read; a search needs no hold buffer. The other calls are lent volume, page and hold, and
 * look at their lengths.
 *
 * Answers
 * -------
 * A call returns its answer and leaves in the block the log, at most one report and at most one flash request: each call
 * replaces those of the call before. "As before" is the log (the block up to PUNELOVASH_AT_REPORT) and every other byte lent.
 * The getters, the survey, the searches and punelovash_next_entry change no byte of a block: its report and request stay too.
 *
 *     number     left behind  when
 *     0 OK
 *     1 FAIL     as before    end of log, bad entry header, no space left in a plain log; or the driver's word
 *     2 BUSY     as before    the state isn't Idle; or the driver's word
 *     5 RESERVE  as before    the client isn't set
 *     6 INVAL    as before    a length or a seek's ID that isn't allowed
 *     7 SIZE     as before    the entry is too long for a page or for a read's length; more page IDs or marks than there is room for
 *     8 CANCEL   R = O        a read with R > A
 *     20 SHAPE   as before    sizes that aren't allowed, or a volume, page or hold of another length where it is lent
 *     21 STATE   as before    the block holds no log: of another length, flags above 7, a state above 5, or IDs or a length that are no log's
 *     22 STRAY   as before    a completion or a deferred call that isn't due
 *     23 LIMIT   as before    an append that needs a page at C
 *     24 NOMARK  as before    a search, at the first entry of the log that is no mark; it gives the entry's ID
 *     25 NOENTRY as before    a search of a log that has no entry
 *     26 RANGE   as before    a search whose first stamp is above its last
 *
 * What the driver's word leaves is said at each call. SHAPE, STATE and STRAY come before all else; only a block of another
 * length has no sizes that SHAPE could look at: it is STATE. A call that is refused leaves every byte of a block of another length,
 * with flags above 7 or with a state above 5, and a refused restart those of any block: from PUNELOVASH_AT_REPORT on it may still
 * be that of an earlier call. After any other refusal by a call that writes the block it says no report and no request.
 *
 * How the flash is driven
 * -----------------------
 * 1. A call may request a flash operation: punelovash_request gives its kind, punelovash_request_page its flash page number
 *    (first_page + slot; the slot begins at volume + slot * P). The caller starts it:
 *      PUNELOVASH_WRITE: the P bytes of the page buffer replace that page, whatever it held. Flash that has to be erased
 *          first is erased and written. No call but a restart changes the page buffer before the completion.
 *      PUNELOVASH_ERASE: that page becomes all 0xFF.
 * 2. When it has ended, and not before, the caller calls punelovash_write_complete or punelovash_erase_complete, once, with
 *    good = 1, or 0 where it failed. A write that failed, or was cut, may have left the old page, all 0xFF or the new page,
 *    an erase the old page or all 0xFF; a page torn otherwise is outside document 01.
 * 3. After a read or a seek that was answered OK the caller calls punelovash_deferred_call, once. Until then the log is BUSY.
 *
 * Each call that may request an operation has an argument `word`: the driver's answer when it was asked to start, 0 started,
 * 2 BUSY, any other number FAIL. It matters only where the call makes a request, and never changes what the request is. The
 * request stands in the block whatever the word was: START AN OPERATION ONLY WHERE THE WORD GIVEN WAS 0. As the request isn't
 * known before the call, there are two ways:
 *
 *   (a) Give 0, then start the operation that is requested. If the driver refuses to start it, call the completion with
 *       good = 0: document 01 knows this as an operation that failed and left the old page. The log is Idle again, and the
 *       report says FAIL. A driver that refuses nothing while it is idle never comes to this, as the log asks for one
 *       operation at a time.
 *   (b) Copy the block before the call. Give 0, and start the operation that is requested. If the driver refuses to start
 *       it, put the copy back and make the same call again with the driver's word. This gives exactly what document 01 says of
 *       that word: the page and hold buffers are left alike whatever the word.
 *
 * Either way suits every driver and every request, and leaves the log Idle with no completion due: it goes on, without a restart.
 * By (b) the refusal is the answer of append, sync or erase, and an erase that is refused leaves the log as it was. An erase
 * completion answers OK whatever the word; a refusal of the next erase is reported, as erase_done(BUSY) or (FAIL). What was erased up
 * to then stays erased, and a further erase goes on from O.
 *
 * A power cut may fall anywhere. After it comes a restart, with the sizes and mode of before. A restart while an operation is
 * under way is a cut: let the flash come to rest first.
 *
 * What a power cut can still take
 * -------------------------------
 * An entry reported done is on flash only once its page was written: by a sync reported OK, or by the write that a later append
 * needs because the page has no more room. A cut before that takes the entry.
 *
 * And a page is written again: by every sync while it is open, and after a restart also if it isn't full and no later page is
 * on flash. A cut in such a write that leaves the page blank (all 0xFF) takes all of its entries, those too that were synced
 * before; one that leaves it old takes those appended since its last write. No other page is changed. With P = 32: append,
 * sync reported OK, append, sync cut and left blank: the log is empty. So a cut takes nothing of a page while one with a higher
 * number is on flash, until the log comes round to its slot or is erased. But it may take that higher page: if it was the only
 * one, the next restart opens the lower page again, unless that is full, and a second cut can take it.
 *
 * A write that failed may have left the page blank too. Its entries are then in the page buffer alone, and until a later write of
 * the page ends well any cut takes them, those too that were synced before.
 *
 * Each sync of a page with entries costs the erase and the write of that page, also where nothing was appended since the last.
 *
 * After a restart a read may answer FAIL before A, at a blank page in the middle of the log: a flush that failed or was refused
 * has left an old page, and an erase behind it was stopped. To read on, let b be R / P rounded up, the blank page's number: if
 * (b + 1) * P + w is at most A, seek to it and read on; if it is above A, this was the end of the log.
 *
 * What else is not promised
 * -------------------------
 * An entry whose length has the remainder 0 or 255 by 256 may hide itself and what follows in its page from a read or a
 * restart: keep to other lengths. A page torn by a cut otherwise than said under 2 is outside of what is proved of restarts;
 * every call is still safe on it.
 *
 * Marks
 * -----
 * A mark is an entry of exactly 15 bytes. The highest byte of a number comes first:
 *
 *     byte     bytes
 *     0        1         version: 1
 *     1        2         length of what follows: 12
 *     3        4         picture number
 *     7        4         stamp, in seconds
 *     11       1         turn, in quarter turns: 0 to 3
 *     12       1 each    region, across, down
 *
 * It is appended, read and lost as any entry is. Two searches find marks by their stamps, which may stand in any order:
 * punelovash_nearest the one nearest to a stamp, punelovash_between all from a first to a last stamp. Each call looks at the
 * entries anew, from O to the first that is no mark or the first FAIL of a read, those in the page buffer too: nearest in one
 * pass, between in two. Nothing is kept between calls. One entry that is no mark, wherever it stands and whatever the stamps
 * asked for, makes both answer NOMARK: a log that is to be searched is for marks alone, and entries of other clients in it rule
 * the searches out. What stands behind a blank page in the middle of the log isn't found.
 *
 * punelovash_next_entry goes over the entries one by one, marks or not, and moves no R:
 *
 *     size_t at = punelovash_log_start(block, PUNELOVASH_BLOCK_SIZE), id, length;
 *     while (punelovash_next_entry(block, PUNELOVASH_BLOCK_SIZE, volume, L, page, P, at, &id, &length, &at) == PUNELOVASH_OK)
 *         look_at(id, length);
 *
 * The entry's bytes begin at page + (id + w) % P where id / P is (A - 1) / P, and else at volume + (id + w) % L. To go on behind
 * a blank page, let b be `at` / P rounded up: if (b + 1) * P + w is at most A, go on with `at` = (b + 1) * P.
 *
 * None of the three changes a byte of the block, the volume or the page buffer; `page` is lent to be read. They make no report
 * and no request, and answer in every state and whatever the clients. While a page is being written they take its entries from
 * the page buffer; while pages are being erased they read in O's page what the flash shows.
 *
 * The time of a search grows with the entries from O to A. A log on a volume that logs wrote has them in N + 1 pages at most. A
 * block of other bytes, or a volume with page headers many laps apart, may have A far above O: then the pages are read round and
 * round, and a search that finds nothing but marks there goes on up to A.
 */
#ifndef PUNELOVASH_H
#define PUNELOVASH_H

#include <stddef.h>
#include <stdint.h>

#ifdef __cplusplus
extern "C" {
#endif

/* Answers, and the results in reports. */
#define PUNELOVASH_OK 0u
#define PUNELOVASH_FAIL 1u
#define PUNELOVASH_BUSY 2u
#define PUNELOVASH_RESERVE 5u
#define PUNELOVASH_INVAL 6u
#define PUNELOVASH_SIZE 7u
#define PUNELOVASH_CANCEL 8u
#define PUNELOVASH_SHAPE 20u
#define PUNELOVASH_STATE 21u
#define PUNELOVASH_STRAY 22u
#define PUNELOVASH_LIMIT 23u
#define PUNELOVASH_NOMARK 24u
#define PUNELOVASH_NOENTRY 25u
#define PUNELOVASH_RANGE 26u

/* The driver's word: any number but 0 and 2 is FAIL. */
#define PUNELOVASH_WORD_OK 0u
#define PUNELOVASH_WORD_FAIL 1u
#define PUNELOVASH_WORD_BUSY 2u

/*
 * The block, and where its numbers stand in it, the lowest byte first: for each the 4-byte board's place, then the 8-byte
 * board's. Only the IDs are words. On the 8-byte board they take twice the room, so what follows them stands 12 bytes further
 * on. Bytes 13 and 14 are not used: no call looks at them or writes them.
 */
#define PUNELOVASH_BLOCK_SIZE 44u
#define PUNELOVASH8_BLOCK_SIZE 56u
#define PUNELOVASH_AT_PAGE_SIZE 0u        /* 4 bytes: P */
#define PUNELOVASH8_AT_PAGE_SIZE 0u
#define PUNELOVASH_AT_PAGE_COUNT 4u       /* 4 bytes: N */
#define PUNELOVASH8_AT_PAGE_COUNT 4u
#define PUNELOVASH_AT_FIRST_PAGE 8u       /* 4 bytes: the first flash page number */
#define PUNELOVASH8_AT_FIRST_PAGE 8u
#define PUNELOVASH_AT_FLAGS 12u           /* a byte: the sum of the flags that are set */
#define PUNELOVASH8_AT_FLAGS 12u
#define PUNELOVASH_AT_STATE 15u           /* a byte: see the states */
#define PUNELOVASH8_AT_STATE 15u
#define PUNELOVASH_AT_OLDEST 16u          /* a word: O */
#define PUNELOVASH8_AT_OLDEST 16u
#define PUNELOVASH_AT_READ 20u            /* a word: R */
#define PUNELOVASH8_AT_READ 24u
#define PUNELOVASH_AT_APPEND 24u          /* a word: A */
#define PUNELOVASH8_AT_APPEND 32u
#define PUNELOVASH_AT_KEPT 28u            /* 4 bytes: the length of the entry under way, or last read or appended */
#define PUNELOVASH8_AT_KEPT 40u
#define PUNELOVASH_AT_REPORT 32u          /* a byte: see the reports */
#define PUNELOVASH8_AT_REPORT 44u
#define PUNELOVASH_AT_REPORT_LOST 33u     /* a byte: 0 or 1 */
#define PUNELOVASH8_AT_REPORT_LOST 45u
#define PUNELOVASH_AT_REPORT_RESULT 34u   /* a byte: an answer */
#define PUNELOVASH8_AT_REPORT_RESULT 46u
#define PUNELOVASH_AT_REQUEST 35u         /* a byte: see the requests */
#define PUNELOVASH8_AT_REQUEST 47u
#define PUNELOVASH_AT_REPORT_LENGTH 36u   /* 4 bytes */
#define PUNELOVASH8_AT_REPORT_LENGTH 48u
#define PUNELOVASH_AT_REQUEST_PAGE 40u    /* 4 bytes: a flash page number */
#define PUNELOVASH8_AT_REQUEST_PAGE 52u

/* Flags: a restart's circular, read_client and append_client that weren't 0. */
#define PUNELOVASH_CIRCULAR 1u
#define PUNELOVASH_READ_CLIENT 2u
#define PUNELOVASH_APPEND_CLIENT 4u

/* States. */
#define PUNELOVASH_IDLE 0u
#define PUNELOVASH_IN_READ 1u   /* a read or */
#define PUNELOVASH_IN_SEEK 2u   /* a seek waits for the deferred call */
#define PUNELOVASH_IN_APPEND 3u /* an append or */
#define PUNELOVASH_IN_SYNC 4u   /* a sync waits for a write's completion */
#define PUNELOVASH_IN_ERASE 5u  /* an erase waits for an erase's completion */

/* Reports. Every report leaves the log Idle. */
#define PUNELOVASH_NO_REPORT 0u
#define PUNELOVASH_APPEND_DONE 1u /* length; lost: O isn't w, so entries were overwritten or erased; result OK, or FAIL or CANCEL with length 0 */
#define PUNELOVASH_SYNC_DONE 2u   /* result OK or FAIL */
#define PUNELOVASH_ERASE_DONE 3u  /* result OK, FAIL or BUSY */
#define PUNELOVASH_READ_DONE 4u   /* length; result OK */
#define PUNELOVASH_SEEK_DONE 5u   /* result OK */

/* Requests. */
#define PUNELOVASH_NO_REQUEST 0u
#define PUNELOVASH_WRITE 1u
#define PUNELOVASH_ERASE 2u

/* The number of 4 bytes, and of 8, at a place in a block. */
static inline uint32_t punelovash_word_at(const uint8_t *block, size_t at)
{
    return (uint32_t)block[at] | (uint32_t)block[at + 1] << 8 | (uint32_t)block[at + 2] << 16 | (uint32_t)block[at + 3] << 24;
}

static inline uint64_t punelovash8_word_at(const uint8_t *block, size_t at)
{
    return punelovash_word_at(block, at) | (uint64_t)punelovash_word_at(block, at + 4) << 32;
}

/* Readers of a block. */
static inline uint8_t punelovash_state(const uint8_t *block) { return block[PUNELOVASH_AT_STATE]; }
static inline uint8_t punelovash_report(const uint8_t *block) { return block[PUNELOVASH_AT_REPORT]; }
static inline uint8_t punelovash_report_lost(const uint8_t *block) { return block[PUNELOVASH_AT_REPORT_LOST]; }
static inline uint8_t punelovash_report_result(const uint8_t *block) { return block[PUNELOVASH_AT_REPORT_RESULT]; }
static inline uint32_t punelovash_report_length(const uint8_t *block) { return punelovash_word_at(block, PUNELOVASH_AT_REPORT_LENGTH); }
static inline uint8_t punelovash_request(const uint8_t *block) { return block[PUNELOVASH_AT_REQUEST]; }
static inline uint32_t punelovash_request_page(const uint8_t *block) { return punelovash_word_at(block, PUNELOVASH_AT_REQUEST_PAGE); }

static inline uint8_t punelovash8_state(const uint8_t *block) { return block[PUNELOVASH8_AT_STATE]; }
static inline uint8_t punelovash8_report(const uint8_t *block) { return block[PUNELOVASH8_AT_REPORT]; }
static inline uint8_t punelovash8_report_lost(const uint8_t *block) { return block[PUNELOVASH8_AT_REPORT_LOST]; }
static inline uint8_t punelovash8_report_result(const uint8_t *block) { return block[PUNELOVASH8_AT_REPORT_RESULT]; }
static inline uint32_t punelovash8_report_length(const uint8_t *block) { return punelovash_word_at(block, PUNELOVASH8_AT_REPORT_LENGTH); }
static inline uint8_t punelovash8_request(const uint8_t *block) { return block[PUNELOVASH8_AT_REQUEST]; }
static inline uint32_t punelovash8_request_page(const uint8_t *block) { return punelovash_word_at(block, PUNELOVASH8_AT_REQUEST_PAGE); }

/*
 * Makes the block a log: what the volume holds is found, and nothing else is carried over. The first call, and the call after
 * a power cut.
 *   page_size     P, a power of two from 4w to 4,096
 *   page_count    N, 1 to 4,096
 *   first_page    the flash page number of the volume's first page, at most 16,777,215
 *   circular      0: a plain log, which is full after N pages; else the oldest page makes room
 *   read_client, append_client    0: the calls of that client are refused as RESERVE
 * Answers OK, SHAPE, or STATE if the block has another length. On OK the log is Idle and O = R. The page buffer holds the newest
 * page; but if that page is full and the next may be opened, the next one is open in the page buffer: its header, w bytes, is
 * written there, and the buffer's other bytes stay. A volume with no page gives O = R = A = w and a page buffer of zeros.
 * Refused: block and page are as before.
 */
uint32_t punelovash_restart(uint8_t *block, size_t block_length,
                            uint32_t page_size, uint32_t page_count, uint32_t first_page,
                            uint8_t circular, uint8_t read_client, uint8_t append_client,
                            const uint8_t *volume, size_t volume_length,
                            uint8_t *page, size_t page_length,
                            const uint8_t *hold, size_t hold_length);
uint32_t punelovash8_restart(uint8_t *block, size_t block_length,
                             uint32_t page_size, uint32_t page_count, uint32_t first_page,
                             uint8_t circular, uint8_t read_client, uint8_t append_client,
                             const uint8_t *volume, size_t volume_length,
                             uint8_t *page, size_t page_length,
                             const uint8_t *hold, size_t hold_length);

/*
 * Appends the first `length` bytes of `data`, 1 to P - 2w of them. Its ID is A, or where the page has no room for it w after
 * the next page's beginning.
 * Answers, in this order: SHAPE, STATE, BUSY; INVAL (length 0, or above data_length), SIZE (length + 2w > P), FAIL (a plain
 * log without room: A + length + w > L), LIMIT, RESERVE (no append client); then OK, or the driver's word.
 *   It fits in the page: it is stored in the page buffer, and append_done(length, lost, OK) is reported by this call.
 *   Otherwise the data is copied to the hold buffer, the page buffer's tail is padded and a write of it is requested; where
 *   this takes the place of the oldest page, O and R move past that. State Append; punelovash_write_complete reports.
 *   The driver's refusal is the answer. It leaves these moves, the padding and the copied data; state Idle, no report.
 * `data` is not needed after the call.
 */
uint32_t punelovash_append(uint8_t *block, size_t block_length,
                           const uint8_t *volume, size_t volume_length,
                           uint8_t *page, size_t page_length,
                           uint8_t *hold, size_t hold_length,
                           const uint8_t *data, size_t data_length,
                           size_t length, uint8_t word);
uint32_t punelovash8_append(uint8_t *block, size_t block_length,
                            const uint8_t *volume, size_t volume_length,
                            uint8_t *page, size_t page_length,
                            uint8_t *hold, size_t hold_length,
                            const uint8_t *data, size_t data_length,
                            size_t length, uint8_t word);

/*
 * Reads the entry at R, of at most `length` bytes, to the front of `buffer`; its other bytes stay.
 * Answers, in this order: SHAPE, STATE, BUSY; INVAL (buffer_length below length), CANCEL (R > A; R becomes O), RESERVE (no
 * read client), FAIL (end of log or a bad entry header), SIZE (the entry is longer than `length`; R stays); then OK.
 * On OK the bytes are in the buffer, R is the entry's end and the state is Read; punelovash_deferred_call reports
 * read_done(length, OK). The length is in the block already, at PUNELOVASH_AT_KEPT.
 */
uint32_t punelovash_read(uint8_t *block, size_t block_length,
                         const uint8_t *volume, size_t volume_length,
                         const uint8_t *page, size_t page_length,
                         uint8_t *buffer, size_t buffer_length,
                         size_t length);
uint32_t punelovash8_read(uint8_t *block, size_t block_length,
                          const uint8_t *volume, size_t volume_length,
                          const uint8_t *page, size_t page_length,
                          uint8_t *buffer, size_t buffer_length,
                          size_t length);

/*
 * R becomes entry_id, which should be one that log_start, log_end or next_read_entry_id has given, or that of a page's first
 * entry, page number * P + w.
 * Answers, in this order: SHAPE, STATE, BUSY; INVAL (not O <= entry_id <= A), RESERVE (no read client); then OK, state Seek;
 * punelovash_deferred_call reports seek_done(OK).
 */
uint32_t punelovash_seek(uint8_t *block, size_t block_length, size_t entry_id);
uint32_t punelovash8_seek(uint8_t *block, size_t block_length, uint64_t entry_id);

/*
 * Writes the page buffer to flash: what was appended is there once sync_done(OK) is reported. A cut in a later write of the same
 * page can still take it: see "What a power cut can still take".
 * Answers, in this order: SHAPE, STATE; OK with no report and no request where A mod P = w (the page has no entry), even when
 * busy; BUSY, RESERVE (no append client); then OK, or the driver's word. The page buffer's tail is padded and a write of it is
 * requested, also where nothing was appended since the last sync; O and R may move as by append. State Sync;
 * punelovash_write_complete reports sync_done.
 * The driver's refusal is the answer. It leaves these moves and the padding; state Idle, no report.
 */
uint32_t punelovash_sync(uint8_t *block, size_t block_length,
                         const uint8_t *volume, size_t volume_length,
                         uint8_t *page, size_t page_length,
                         const uint8_t *hold, size_t hold_length,
                         uint8_t word);
uint32_t punelovash8_sync(uint8_t *block, size_t block_length,
                          const uint8_t *volume, size_t volume_length,
                          uint8_t *page, size_t page_length,
                          const uint8_t *hold, size_t hold_length,
                          uint8_t word);

/*
 * Erases the log, page by page from the oldest.
 * Answers, in this order: SHAPE, STATE, BUSY, RESERVE (no append client); then OK, or the driver's word. State Erase, and the
 * erase of O's page is requested; punelovash_erase_complete goes on.
 * The driver's refusal is the answer and leaves the log as it was, in Idle: try again later.
 */
uint32_t punelovash_erase(uint8_t *block, size_t block_length, uint8_t word);
uint32_t punelovash8_erase(uint8_t *block, size_t block_length, uint8_t word);

/*
 * The write that was requested has ended: well, or it failed (good 0).
 * Answers SHAPE, STATE, STRAY (the state is neither Append nor Sync) or OK. On OK the log is Idle, and reported is
 *   in Append: append_done(length, lost, OK), with the entry stored in a new page in the page buffer; or append_done(0, 0,
 *   CANCEL) where no page may be opened, which doesn't come about in a log that a restart made; failed: append_done(0, 0, FAIL);
 *   in Sync: sync_done(OK), with a new page opened where the one written is full and another is allowed; failed: sync_done(FAIL).
 * After a failure the page buffer still holds its entries, and the flash perhaps none of them, as the page may be left blank: a
 * cut before a later write of it ends well takes them. The next flush writes it again.
 */
uint32_t punelovash_write_complete(uint8_t *block, size_t block_length,
                                   const uint8_t *volume, size_t volume_length,
                                   uint8_t *page, size_t page_length,
                                   const uint8_t *hold, size_t hold_length,
                                   uint8_t good);
uint32_t punelovash8_write_complete(uint8_t *block, size_t block_length,
                                    const uint8_t *volume, size_t volume_length,
                                    uint8_t *page, size_t page_length,
                                    const uint8_t *hold, size_t hold_length,
                                    uint8_t good);

/*
 * The erase that was requested has ended: well, or it failed (good 0). `word` is for the next one.
 * Answers SHAPE, STATE, STRAY (the state isn't Erase) or OK; the driver's word is never the answer here.
 *   Well, and it was the last page: O = R = A = w, page buffer all 0, Idle, erase_done(OK).
 *   Well, and more pages are left: O moves to the next page and its erase is requested; no report, state Erase. Where the word is
 *   BUSY or FAIL: R is at least the former O, erase_done(BUSY) or erase_done(FAIL), Idle.
 *   Failed: erase_done(FAIL), Idle; O and R are as before.
 * After erase_done with another result than OK, R may be in a page that is erased: seek to punelovash_log_start before a read.
 */
uint32_t punelovash_erase_complete(uint8_t *block, size_t block_length,
                                   const uint8_t *volume, size_t volume_length,
                                   uint8_t *page, size_t page_length,
                                   const uint8_t *hold, size_t hold_length,
                                   uint8_t good, uint8_t word);
uint32_t punelovash8_erase_complete(uint8_t *block, size_t block_length,
                                    const uint8_t *volume, size_t volume_length,
                                    uint8_t *page, size_t page_length,
                                    const uint8_t *hold, size_t hold_length,
                                    uint8_t good, uint8_t word);

/*
 * Ends a read or a seek: reports read_done(length, OK) or seek_done(OK), then Idle. In Idle it does nothing.
 * Answers SHAPE, STATE, STRAY (the state is Append, Sync or Erase) or OK.
 */
uint32_t punelovash_deferred_call(uint8_t *block, size_t block_length);
uint32_t punelovash8_deferred_call(uint8_t *block, size_t block_length);

/*
 * Writes the ID of each page that the volume holds, the page's number times P, once to `ids`, which has room for ids_length
 * of them, and their count to `count`. The IDs rise from element to element; N elements are always enough. It needs no log and
 * no block; sizes are those of punelovash_restart. On a volume that a log wrote the time grows with N; on any other, headers in
 * any order, with N * N / 2 at most.
 * Answers OK, SHAPE (sizes, or a volume of another length) or SIZE (more IDs than elements). On OK the elements after the
 * count stay; refused, all of `ids` and the count stay. `ids` and `count` are aligned as their types are.
 */
uint32_t punelovash_survey(uint32_t page_size, uint32_t page_count, uint32_t first_page,
                           const uint8_t *volume, size_t volume_length,
                           uint32_t *ids, size_t ids_length,
                           size_t *count);
uint32_t punelovash8_survey(uint32_t page_size, uint32_t page_count, uint32_t first_page,
                            const uint8_t *volume, size_t volume_length,
                            uint64_t *ids, size_t ids_length,
                            size_t *count);

/*
 * Gives the ID of the mark whose stamp differs least from `stamp`, the earlier in the log where two differ alike.
 * Answers, in this order: SHAPE, STATE; NOMARK with the ID of the first entry that is no mark, NOENTRY (the log has no entry);
 * then OK. After SHAPE, STATE and NOENTRY the number stays. `entry_id` is aligned as its type is.
 */
uint32_t punelovash_nearest(const uint8_t *block, size_t block_length,
                            const uint8_t *volume, size_t volume_length,
                            const uint8_t *page, size_t page_length,
                            uint32_t stamp,
                            size_t *entry_id);
uint32_t punelovash8_nearest(const uint8_t *block, size_t block_length,
                             const uint8_t *volume, size_t volume_length,
                             const uint8_t *page, size_t page_length,
                             uint32_t stamp,
                             uint64_t *entry_id);

/*
 * Writes the IDs of all marks with stamps from `first` to `last`, both included, in log order to the front of `ids`, which has
 * room for ids_length of them, and their count to `value`. The elements have 64 bits on both boards. On a volume that logs wrote
 * (N + 1) * ((P - w) / (w + 15)) of them are always enough.
 * Answers, in this order: SHAPE, STATE; NOMARK with the ID of the first entry that is no mark in `value`, NOENTRY (the log has
 * no entry), RANGE (first above last), SIZE (more marks than elements); then OK. On OK the elements after the count stay;
 * refused, all of `ids` stays, and `value` unless it is NOMARK. `ids` and `value` are aligned as their types are.
 */
uint32_t punelovash_between(const uint8_t *block, size_t block_length,
                            const uint8_t *volume, size_t volume_length,
                            const uint8_t *page, size_t page_length,
                            uint32_t first, uint32_t last,
                            uint64_t *ids, size_t ids_length,
                            size_t *value);
uint32_t punelovash8_between(const uint8_t *block, size_t block_length,
                             const uint8_t *volume, size_t volume_length,
                             const uint8_t *page, size_t page_length,
                             uint32_t first, uint32_t last,
                             uint64_t *ids, size_t ids_length,
                             uint64_t *value);

/*
 * Gives the first entry at the ID `at` or past it: its ID, which is that of its length word, its length in bytes, and the ID
 * after it, where the next call goes on. `at` may be any number, but should be log_start, an entry's ID, an `end` that was given,
 * or a page's beginning: elsewhere what isn't an entry may be taken for one.
 * Answers, in this order: SHAPE, STATE, FAIL (the end: A, or a bad entry header, as a read answers); then OK. After any other
 * answer than OK the three numbers stay. `entry_id`, `length` and `end` are aligned as their types are.
 */
uint32_t punelovash_next_entry(const uint8_t *block, size_t block_length,
                               const uint8_t *volume, size_t volume_length,
                               const uint8_t *page, size_t page_length,
                               size_t at,
                               size_t *entry_id, size_t *length, size_t *end);
uint32_t punelovash8_next_entry(const uint8_t *block, size_t block_length,
                                const uint8_t *volume, size_t volume_length,
                                const uint8_t *page, size_t page_length,
                                uint64_t at,
                                uint64_t *entry_id, size_t *length, uint64_t *end);

/* O, the ID of the oldest entry. Each of these four is 0 for a block that holds no log; none changes anything. */
size_t punelovash_log_start(const uint8_t *block, size_t block_length);
uint64_t punelovash8_log_start(const uint8_t *block, size_t block_length);

/* A, the end of the log: the ID that the next entry will have, if it fits in the page. It is no entry's that is there now. */
size_t punelovash_log_end(const uint8_t *block, size_t block_length);
uint64_t punelovash8_log_end(const uint8_t *block, size_t block_length);

/* R, where the next read looks for its entry. */
size_t punelovash_next_read_entry_id(const uint8_t *block, size_t block_length);
uint64_t punelovash8_next_read_entry_id(const uint8_t *block, size_t block_length);

/* L - wN: the volume without its page headers; 0 for sizes that SHAPE refuses. */
size_t punelovash_get_size(const uint8_t *block, size_t block_length);
size_t punelovash8_get_size(const uint8_t *block, size_t block_length);

#ifdef __cplusplus
}
#endif

#endif
