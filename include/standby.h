/*
 * standby.h: the standby core, for C (C99 or later, and C++).
 *
 * The rules stand in docs/RULES.md, one lot's bytes in docs/LOT.md. Link with libservice.a.
 *
 * Memory.      The caller lends the standby's memory: 1 to 16 lots of STANDBY_LOT_SIZE bytes each, one after the
 *              other. Nothing is kept elsewhere: no heap, no globals, no files. The memory may be copied or written
 *              to disk whole between calls. Lots of memory that was never started count as damaged.
 * Ownership.   Every buffer stays the caller's. A function uses it until it returns and keeps no pointer.
 * Overlap.     Buffers lent to one call must not overlap: no entry, list, image or row inside the memory. This is
 *              the one thing that a caller must keep and that no answer tells.
 * Pointers.    A pointer with a length above 0 points to at least so many bytes; with length 0 any pointer that is
 *              not NULL serves. No alignment is needed.
 * Threads.     One call at a time on one memory. Calls on different memories are independent.
 * Time.        Every call returns. Deliver, close, read and save cost the held entries of the named lot (save also its
 *              records); open, load and the overview look at every lot.
 *
 * Answers.     One uint64_t: bits 0-7 the number (0 done, otherwise the refusal), bits 8-31 the first other number,
 *              bits 32-63 the second. A refusal's other numbers are 0, but for STANDBY_MARK_MISSING.
 * Refusals.    A refusal changes no lent byte: not the memory, not the list, the image or the rows. Where several
 *              refusals apply, the answer is the first in the order that stands with each function.
 *
 * All numbers are judged whole: 65543 is not account 7, key 65536 is outside every account.
 */
#ifndef STANDBY_H
#define STANDBY_H

#include <stddef.h>
#include <stdint.h>

#ifdef __cplusplus
extern "C" {
#endif

/* ---- sizes, in bytes unless they say otherwise */

#define STANDBY_LOT_SIZE 10320      /* one lot; the memory is lots * STANDBY_LOT_SIZE */
#define STANDBY_MOST_LOTS 16        /* lots in one memory, at least 1 */
#define STANDBY_MOST_FRAGMENTS 8    /* fragments of an account, at least 1 */
#define STANDBY_MOST_KEYS 128       /* keys a fragment, at least 1 */
#define STANDBY_MOST_HELD 256       /* entries that a lot holds */
#define STANDBY_ENTRY_SIZE 16       /* one entry */
#define STANDBY_LONGEST_IMAGE 13400 /* the least image buffer for save, however short the image */
#define STANDBY_LIST_SIZE 2048      /* the least list for close: 512 numbers of 4 bytes */
#define STANDBY_ROW_SIZE 16         /* one row of the overview: 4 numbers of 4 bytes */

/* ---- kinds of an entry (its byte 0) */

#define STANDBY_PUT 1
#define STANDBY_DELETE 2
#define STANDBY_P 3    /* prepare */
#define STANDBY_CC 4   /* the coordinator's or a local commit */
#define STANDBY_CP 5   /* a participant's commit */
#define STANDBY_A 6    /* abort */
#define STANDBY_MARK 7 /* the epoch's end in this stream */

/* ---- the numbers of an answer */

#define STANDBY_DONE 0
#define STANDBY_NO_SUCH_LOT 1
#define STANDBY_DAMAGED 2
#define STANDBY_NOT_THIS_ACCOUNT 3
#define STANDBY_WRONG_LENGTH 4
#define STANDBY_UNFIT 5
#define STANDBY_OUTSIDE_ACCOUNT 6
#define STANDBY_SEEN 7
#define STANDBY_GAP 8
#define STANDBY_WRONG_MARK 9
#define STANDBY_OUT_OF_TURN 10
#define STANDBY_FULL 11
#define STANDBY_MARK_MISSING 12
#define STANDBY_ALREADY_OPEN 13
#define STANDBY_NO_FREE_LOT 14
#define STANDBY_UNFIT_ACCOUNT 15
#define STANDBY_TOO_SHORT 16
#define STANDBY_NOT_ACCEPTED 17

/* ---- the three parts of an answer */

static inline uint32_t standby_number(uint64_t answer) { return (uint32_t)(answer & 0xff); }
static inline uint32_t standby_first(uint64_t answer) { return (uint32_t)(answer >> 8 & 0xffffff); }
static inline uint32_t standby_second(uint64_t answer) { return (uint32_t)(answer >> 32); }

/* A sentence for night staff. */
static inline const char *standby_text(uint32_t number) {
    switch (number) {
    case STANDBY_DONE:
        return "Done.";
    case STANDBY_NO_SUCH_LOT:
        return "There is no such lot, or the memory is not 1 to 16 whole lots. The caller passed wrong numbers: check the "
               "service's configuration; no data is touched.";
    case STANDBY_DAMAGED:
        return "A lot is damaged: its bytes were changed from outside, or the memory was never started. Find the lot in the "
               "overview, drop it and load the account's last image; the other accounts go on.";
    case STANDBY_NOT_THIS_ACCOUNT:
        return "The lot is free or belongs to another account. The service has the wrong lot for this account: look it up in "
               "the overview.";
    case STANDBY_WRONG_LENGTH:
        return "An entry has 16 bytes, and this one has not. The link cut or joined entries: have the sender start again at "
               "the stream's next number.";
    case STANDBY_UNFIT:
        return "The entry makes no sense: unknown kind, an unused byte that is not zero, transaction 0 or an impossible mark "
               "number. Keep the bytes and call the engineers of the sender.";
    case STANDBY_OUTSIDE_ACCOUNT:
        return "A fragment, key or coordinator outside this account, or a coordinator that names its own fragment. Check that "
               "the account was opened with the sizes that the primary uses.";
    case STANDBY_SEEN:
        return "This entry was taken before. Harmless: the sender repeats itself and may go on.";
    case STANDBY_GAP:
        return "Entries before this one are missing. Have the sender repeat from the stream's next number.";
    case STANDBY_WRONG_MARK:
        return "The mark is not the one of the stream's open epoch. Sender and standby disagree on the epoch: call the "
               "engineers of the sender.";
    case STANDBY_OUT_OF_TURN:
        return "The entry does not fit what its transaction has done so far in this stream, such as a commit without its "
               "prepare. Keep the bytes and call the engineers of the sender.";
    case STANDBY_FULL:
        return "The account's 256 places are taken. Deliver the marks and close epochs, then deliver the entry again. Other "
               "accounts do not notice.";
    case STANDBY_MARK_MISSING:
        return "The epoch can't be closed yet: some streams have not brought their mark. Wait for them; the answer says which.";
    case STANDBY_ALREADY_OPEN:
        return "The account has a lot already. Use that lot, or drop it first.";
    case STANDBY_NO_FREE_LOT:
        return "Every lot is taken. Drop an account that is not needed here, or use another memory.";
    case STANDBY_UNFIT_ACCOUNT:
        return "Account numbers go from 1 to 65,535, fragments from 1 to 8 and keys from 1 to 128. Check the customer's "
               "settings.";
    case STANDBY_TOO_SHORT:
        return "The lent list, image buffer or row space is too short. A fault of the calling program, not of the data.";
    case STANDBY_NOT_ACCEPTED:
        return "The data does not end with an image that the standby accepts: cut short, changed, or no image. Take the image "
               "before it.";
    default:
        return "No such number: the caller and the library are of different versions.";
    }
}

/* A short name, for tables. */
static inline const char *standby_short(uint32_t number) {
    static const char *const names[] = {
        "done",         "no such lot",  "damaged",         "not this account", "wrong length", "unfit",
        "outside",      "seen",         "gap",             "wrong mark",       "out of turn",  "full",
        "mark missing", "already open", "no free lot",     "unfit account",    "too short",    "not accepted",
    };
    return number < sizeof names / sizeof names[0] ? names[number] : "unknown";
}

/* ---- numbers in lent bytes (little-endian), to read lists and rows */

static inline uint32_t standby_number_at(const uint8_t *bytes, size_t i) {
    const uint8_t *p = bytes + i * 4;
    return (uint32_t)p[0] | (uint32_t)p[1] << 8 | (uint32_t)p[2] << 16 | (uint32_t)p[3] << 24;
}

/* ---- the nine functions
 *
 * In all of them: memory, memory_len: the standby's memory; lots: how many lots it has (memory_len must be exactly
 * lots * STANDBY_LOT_SIZE); lot: from 0; account: its number.
 */

/*
 * Makes every lot free, damaged ones too: whatever they held is gone. The first call on new memory.
 * Refusals: STANDBY_NO_SUCH_LOT.
 */
uint64_t standby_start(uint8_t *memory, size_t memory_len, uint32_t lots);

/*
 * Opens an account in the free lot with the lowest number: no records, nothing held, each stream's next number 0 and
 * open epoch 1, closed epoch 0. Writes in that lot alone.
 * Done: first = the lot.
 * Refusals, in order: STANDBY_NO_SUCH_LOT, STANDBY_DAMAGED (any lot), STANDBY_UNFIT_ACCOUNT, STANDBY_ALREADY_OPEN,
 * STANDBY_NO_FREE_LOT.
 */
uint64_t standby_open(uint8_t *memory, size_t memory_len, uint32_t lots, uint32_t account, uint32_t fragments, uint32_t keys);

/*
 * Takes one entry of one stream. A taken entry is held until a close settles it; a mark is not held, and ends the
 * stream's epoch. The entry's bytes are only read. Writes in the named lot alone.
 * Refusals, in order: STANDBY_NO_SUCH_LOT, STANDBY_DAMAGED, STANDBY_NOT_THIS_ACCOUNT, STANDBY_WRONG_LENGTH,
 * STANDBY_UNFIT, STANDBY_OUTSIDE_ACCOUNT, STANDBY_SEEN, STANDBY_GAP, STANDBY_WRONG_MARK, STANDBY_OUT_OF_TURN,
 * STANDBY_FULL.
 */
uint64_t standby_deliver(uint8_t *memory, size_t memory_len, uint32_t lots, uint32_t lot, uint32_t account,
                         const uint8_t *entry, size_t entry_len);

/*
 * Closes the epoch after the last closed one, where every stream has taken its mark: installs the pieces of
 * transactions that are decided, and frees what is settled. Writes the installed pieces to the list, each as two
 * numbers of 4 bytes, little-endian (fragment, transaction), stream 0 first; later bytes of the list stay.
 * list_len is in bytes, at least STANDBY_LIST_SIZE. Writes in the named lot and the list alone.
 * Done: first = how many pieces.
 * Refusals, in order: STANDBY_NO_SUCH_LOT, STANDBY_DAMAGED, STANDBY_NOT_THIS_ACCOUNT, STANDBY_TOO_SHORT,
 * STANDBY_MARK_MISSING (first = a byte, bit i set where stream i has not brought the mark; second = how many).
 */
uint64_t standby_close(uint8_t *memory, size_t memory_len, uint32_t lots, uint32_t lot, uint32_t account, uint8_t *list,
                       size_t list_len);

/*
 * Reads the record of a fragment and a key, as the last close left it. Writes nothing.
 * Done: first = 1 and second = the value; for an absent record both 0.
 * Refusals, in order: STANDBY_NO_SUCH_LOT, STANDBY_DAMAGED, STANDBY_NOT_THIS_ACCOUNT, STANDBY_OUTSIDE_ACCOUNT.
 */
uint64_t standby_read(const uint8_t *memory, size_t memory_len, uint32_t lots, uint32_t lot, uint32_t account,
                      uint32_t fragment, uint32_t key);

/*
 * Writes the account's image to the front of the buffer; later bytes stay. image_len is the buffer's length, at least
 * STANDBY_LONGEST_IMAGE. The memory is only read.
 * Done: first = the image's length.
 * Refusals, in order: STANDBY_NO_SUCH_LOT, STANDBY_DAMAGED, STANDBY_NOT_THIS_ACCOUNT, STANDBY_TOO_SHORT.
 */
uint64_t standby_save(const uint8_t *memory, size_t memory_len, uint32_t lots, uint32_t lot, uint32_t account,
                      uint8_t *image, size_t image_len);

/*
 * Loads the image that stands at the end of the data into the free lot with the lowest number. The data is only read,
 * and what stands before the image is not looked at. Writes in that lot alone.
 * Done: first = the lot.
 * Refusals, in order: STANDBY_NO_SUCH_LOT, STANDBY_DAMAGED (any lot), STANDBY_NOT_ACCEPTED, STANDBY_ALREADY_OPEN,
 * STANDBY_NO_FREE_LOT.
 */
uint64_t standby_load(uint8_t *memory, size_t memory_len, uint32_t lots, const uint8_t *data, size_t data_len);

/*
 * Frees the account's lot; a damaged lot is freed whichever account is named. Writes in the named lot alone.
 * Refusals, in order: STANDBY_NO_SUCH_LOT, STANDBY_NOT_THIS_ACCOUNT.
 */
uint64_t standby_drop(uint8_t *memory, size_t memory_len, uint32_t lots, uint32_t lot, uint32_t account);

/*
 * The desk's overview: one row of STANDBY_ROW_SIZE bytes for each lot, four numbers of 4 bytes, little-endian:
 * account, closed epoch, held count, damage. A free lot's row is all 0, a damaged one's 0, 0, 0, 1. Later bytes stay.
 * rows_len is in bytes, at least lots * STANDBY_ROW_SIZE. The memory is only read.
 * Refusals, in order: STANDBY_NO_SUCH_LOT, STANDBY_TOO_SHORT.
 */
uint64_t standby_overview(const uint8_t *memory, size_t memory_len, uint32_t lots, uint8_t *rows, size_t rows_len);

#ifdef __cplusplus
}
#endif

#endif
