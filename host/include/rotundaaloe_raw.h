/*
 * The layer below rotundaaloe.h: document 01's limits, the arrays of a protection state that they
 * measure, and the functions that the library exports over bare arrays. A host includes
 * rotundaaloe.h and calls what stands there. Here an answer and a refusal are one number, and a
 * pointer must be valid for the length that goes with it, or for the array that is declared, and
 * never NULL, even with a length of 0. What is written to must overlap nothing else that is passed.
 * No pointer is kept, and what is const is not written to.
 */
#ifndef ROTUNDAALOE_RAW_H
#define ROTUNDAALOE_RAW_H

#include <stddef.h>
#include <stdint.h>

#ifdef __cplusplus
extern "C" {
#endif

#define ROTUNDAALOE_MOST_USERS 32
#define ROTUNDAALOE_MOST_THREADS 64     /* live at a time */
#define ROTUNDAALOE_MOST_SEGMENTS 64
#define ROTUNDAALOE_MOST_KEYS 1024      /* that users define */
#define ROTUNDAALOE_MOST_LISTED 8       /* keys in a segment's list, its own S key included */
#define ROTUNDAALOE_MOST_PRODUCTS 8     /* of a formula, and of all standing locks of a segment */
#define ROTUNDAALOE_MOST_LITERALS 6     /* of a product */
#define ROTUNDAALOE_MOST_OPEN_CALLS 16  /* of a thread */
#define ROTUNDAALOE_MOST_NUMBERS 65536  /* of threads, and of locks, in a state's life */
#define ROTUNDAALOE_MOST_TEXT 96        /* bytes of a lock's text */
#define ROTUNDAALOE_MOST_DEPTH 8        /* brackets within each other in it */
#define ROTUNDAALOE_JOURNAL_BYTES 65535 /* the most of a journal */
#define ROTUNDAALOE_JOURNAL_HEAD 7      /* those before its first record */

/* Cells of a row, whatever it holds. */
#define ROTUNDAALOE_ROW 8

/*
 * A protection state (document 01: desk). Every cell 0 is the empty state. The cells' meaning is
 * the guard's own matter: a host keeps them as they are, and may copy them all. Whatever numbers
 * are in them, every function returns and writes to nothing else.
 *
 * registry has the counts, makers the defined keys' makers, segments[s] segment s and its key
 * list, locks[s] the products of the locks on segment s, and threads[p] the live thread in place p
 * with its open calls.
 */
struct rotundaaloe_state {
    uint32_t registry[ROTUNDAALOE_ROW];
    uint16_t makers[ROTUNDAALOE_MOST_KEYS];
    uint16_t segments[ROTUNDAALOE_MOST_SEGMENTS][2][ROTUNDAALOE_ROW];
    uint32_t locks[ROTUNDAALOE_MOST_SEGMENTS][ROTUNDAALOE_MOST_PRODUCTS][ROTUNDAALOE_ROW];
    uint16_t threads[ROTUNDAALOE_MOST_THREADS][1 + ROTUNDAALOE_MOST_OPEN_CALLS][ROTUNDAALOE_ROW];
};

/* The library's version, two digits for each of its three parts: 200 is 0.2.0. */
uint32_t rotundaaloe_raw_version(void);

/* Writes the empty state: 0 to every cell. */
void rotundaaloe_raw_empty(
    uint32_t registry[ROTUNDAALOE_ROW],
    uint16_t makers[ROTUNDAALOE_MOST_KEYS],
    uint16_t segments[ROTUNDAALOE_MOST_SEGMENTS][2][ROTUNDAALOE_ROW],
    uint32_t locks[ROTUNDAALOE_MOST_SEGMENTS][ROTUNDAALOE_MOST_PRODUCTS][ROTUNDAALOE_ROW],
    uint16_t threads[ROTUNDAALOE_MOST_THREADS][1 + ROTUNDAALOE_MOST_OPEN_CALLS][ROTUNDAALOE_ROW]);

/*
 * Writes how many users, threads, segments, defined keys and locks are left to hand out, in this
 * order.
 */
void rotundaaloe_raw_left(const uint32_t registry[ROTUNDAALOE_ROW], uint32_t left[5]);

/*
 * One of the twelve calls, by its letter. In an edit, which is N, K, G, T, L or D, a is a live
 * thread, whose user is the editor; in S it is a user. An unknown letter, a field that is not 0
 * where its call has none, or a text where the letter is not L is refusal 18, before all else.
 *
 * Answer: below 65536 the call is accepted, and it is document 01's answer. Any other is
 * refusal * 65536 + second, document 01's two numbers, and then no cell is changed.
 */
uint32_t rotundaaloe_raw_call(
    uint32_t registry[ROTUNDAALOE_ROW],
    uint16_t makers[ROTUNDAALOE_MOST_KEYS],
    uint16_t segments[ROTUNDAALOE_MOST_SEGMENTS][2][ROTUNDAALOE_ROW],
    uint32_t locks[ROTUNDAALOE_MOST_SEGMENTS][ROTUNDAALOE_MOST_PRODUCTS][ROTUNDAALOE_ROW],
    uint16_t threads[ROTUNDAALOE_MOST_THREADS][1 + ROTUNDAALOE_MOST_OPEN_CALLS][ROTUNDAALOE_ROW],
    uint8_t letter, uint16_t a, uint16_t b, uint16_t c, const uint8_t *text, size_t length);

/*
 * C (call), without the entry: thread a calls segment b.
 *
 * Answer: the tightest lock that opened, or a refusal, as above.
 */
uint32_t rotundaaloe_raw_call_segment(
    const uint32_t registry[ROTUNDAALOE_ROW],
    const uint16_t segments[ROTUNDAALOE_MOST_SEGMENTS][2][ROTUNDAALOE_ROW],
    const uint32_t locks[ROTUNDAALOE_MOST_SEGMENTS][ROTUNDAALOE_MOST_PRODUCTS][ROTUNDAALOE_ROW],
    uint16_t threads[ROTUNDAALOE_MOST_THREADS][1 + ROTUNDAALOE_MOST_OPEN_CALLS][ROTUNDAALOE_ROW],
    uint16_t a, uint16_t b);

/*
 * R (return), without the entry: thread a leaves its newest open call.
 *
 * Answer: the segment that is left, or a refusal, as above.
 */
uint32_t rotundaaloe_raw_return_call(
    uint16_t threads[ROTUNDAALOE_MOST_THREADS][1 + ROTUNDAALOE_MOST_OPEN_CALLS][ROTUNDAALOE_ROW],
    uint16_t a);

/*
 * A (access), without the entry: thread a reads (c = 2) or writes to (c = 4) segment b.
 *
 * Answer: the tightest lock that opened, or a refusal, as above.
 */
uint32_t rotundaaloe_raw_access(
    const uint32_t registry[ROTUNDAALOE_ROW],
    const uint16_t segments[ROTUNDAALOE_MOST_SEGMENTS][2][ROTUNDAALOE_ROW],
    const uint32_t locks[ROTUNDAALOE_MOST_SEGMENTS][ROTUNDAALOE_MOST_PRODUCTS][ROTUNDAALOE_ROW],
    const uint16_t threads[ROTUNDAALOE_MOST_THREADS][1 + ROTUNDAALOE_MOST_OPEN_CALLS]
                          [ROTUNDAALOE_ROW],
    uint16_t a, uint16_t b, uint16_t c);

/*
 * The standing locks of a segment, by rising number, as the user may see them. The segment's owner
 * gets a row for each product, in the order of the formula's list, anyone else one for each lock.
 *
 * A row is the lock, its operations, added up from 1, 2 and 4, and 1 for a deny lock or 0 for a
 * grant lock; then its keys, in the product's order: the letter U, R, S or D, the number, and 1 for
 * a barred key or 0 for a plain one. What has no key is three times 0: the slots after a product's
 * last, and all of a row that isn't the owner's.
 *
 * Answer: below 65536 the number of rows filled, from the first on, and the others are as they
 * were. Any other is refusal * 65536, and then no row is changed: 1 (unknown user), 3 (no segment),
 * and 19 if fewer rows are lent than this user needs.
 */
uint32_t rotundaaloe_raw_list_locks(
    const uint32_t registry[ROTUNDAALOE_ROW],
    const uint16_t segments[ROTUNDAALOE_MOST_SEGMENTS][2][ROTUNDAALOE_ROW],
    const uint32_t locks[ROTUNDAALOE_MOST_SEGMENTS][ROTUNDAALOE_MOST_PRODUCTS][ROTUNDAALOE_ROW],
    uint16_t user, uint16_t segment,
    uint16_t rows[][1 + ROTUNDAALOE_MOST_LITERALS][3], size_t lent);

/* What a key search answers where no open call hands the key over. */
#define ROTUNDAALOE_NO_PLACE 65535

/*
 * The newest open call of thread a that hands a key over. key is the key's number,
 * kind * 65536 + number, with kind 0 user, 1 thread, 2 segment, 3 defined. No call hands over a
 * user's key or a thread's, also where the thread holds it, nor a number from 262144 on, which is
 * no key's.
 *
 * Answer: below 65536 the call's place among all open calls of the thread, 0 for the newest, or
 * 65535 where none hands the key over. Any other is refusal * 65536: 2 (no live thread).
 */
uint32_t rotundaaloe_raw_find_key(
    const uint16_t threads[ROTUNDAALOE_MOST_THREADS][1 + ROTUNDAALOE_MOST_OPEN_CALLS]
                          [ROTUNDAALOE_ROW],
    uint16_t a, uint32_t key);

/*
 * The products of a formula text (document 01: lock text). users, threads, segments and defined
 * say how many keys of each kind were handed out.
 *
 * Answer: the number of products, 1 to 8, and the rows then hold them, or the refusal
 * 11 (malformed), 12 (too wide) or 13 (unsatisfiable), and then no cell is changed.
 *
 * Product i is row i: its n literals in order in cells 0 to n - 1, n in cell 7, 0 in the
 * other cells; rows beyond the last product are all 0. A literal is
 * kind * 131072 + number * 2 + sign, with kind 0 user, 1 thread, 2 segment, 3 defined,
 * and sign 0 plain, 1 barred.
 */
uint32_t rotundaaloe_raw_compile(const uint8_t *text, size_t length, uint32_t users,
                                 uint32_t threads, uint32_t segments, uint32_t defined,
                                 uint32_t rows[ROTUNDAALOE_MOST_PRODUCTS][ROTUNDAALOE_ROW]);

/*
 * Whether a key set opens one of the first count products in the rows: each plain key of the
 * product is in the set, and no barred one is. The count must be the one that compiling answered:
 * a row beyond the last product has no literals, and every key set opens it.
 *
 * keys are the numbers of the set's keys, in any order; a key's number is kind * 65536 + number.
 *
 * Answer: 1 if it opens one, 0 if none. A count above 8 is that of a sum that is too wide, which
 * no key set opens.
 */
uint32_t rotundaaloe_raw_opens(const uint32_t rows[ROTUNDAALOE_MOST_PRODUCTS][ROTUNDAALOE_ROW],
                               size_t count, const uint32_t *keys, size_t keys_count);

/*
 * A journal (document 01: desk file) is the bytes 4B 4C 44, the version 2 and the record count,
 * then the records: a letter, a, b, c and the text's length, then the text. Numbers have 16 bits,
 * low byte first. The refusals are 10 (full), 16 (not a journal), 17 (other version) and
 * 18 (corrupt).
 */

/*
 * Opens a journal: checks the whole file, before any of its records is read.
 *
 * Answer: 0, and *cursor is then the first record's; or the refusal 16, 17 or 18, and then *cursor
 * is as it was.
 */
uint32_t rotundaaloe_raw_journal_open(const uint8_t *file, size_t length, size_t *cursor);

/*
 * Reads the next record of a journal that was opened. The bytes must be those that were opened and
 * the cursor one that opening or reading left: of others, which do no harm, the answer says only
 * what stands there.
 *
 * Answer: 1, and values then holds the record's letter, a, b, c, where its text starts in the file
 * and where it ends, and *cursor is after the record; 0 at the end; or the refusal 18 where neither
 * a whole record nor the end stands at the cursor, which never happens in a journal that was
 * opened. On 0 and 18 neither *cursor nor a value is changed.
 */
uint32_t rotundaaloe_raw_journal_next(const uint8_t *file, size_t length, size_t *cursor,
                                      uint64_t values[6]);

/*
 * Writes the journal without records, 7 bytes, to the buffer's start.
 *
 * Answer: 0, and the other bytes are as they were, or the refusal 10 if the buffer has fewer than
 * 7 bytes, and then no byte is changed.
 */
uint32_t rotundaaloe_raw_journal_empty(uint8_t *buffer, size_t capacity);

/*
 * Appends a record to the journal in the buffer's first *size bytes.
 *
 * Answer: 0, and *size is then the journal's new size, its count is one more, the record follows
 * what was there, and the other bytes are as they were; or the refusal 10, 16, 17 or 18, and then
 * no byte is changed, nor *size. A *size above capacity is 18, and so is a record with an unknown
 * letter, a field that is not 0 where its call has none, or a text of the wrong length: 1 to 96
 * bytes for L, none for the others.
 */
uint32_t rotundaaloe_raw_journal_append(uint8_t *buffer, size_t capacity, size_t *size,
                                        uint8_t letter, uint16_t a, uint16_t b, uint16_t c,
                                        const uint8_t *text, size_t text_length);

#ifdef __cplusplus
}
#endif

#endif
