/*
 * The proved guard for hosts in C and C++: functions over a struct rotundaaloe_state, which a host
 * keeps, empties once and never looks into. They are static inline over the exported functions of
 * rotundaaloe_raw.h, where the limits stand too (ROTUNDAALOE_MOST_USERS and others).
 *
 * One convention: what can be refused returns a number of enum rotundaaloe_refusal, and 0 is
 * ROTUNDAALOE_ACCEPTED. The answer goes to a pointer, which a refusal leaves alone. A refused call
 * has changed nothing. What can't be refused returns nothing, or a value that is no answer.
 * The number is an unsigned, and a host keeps it in one: GCC warns nobody who keeps an enum in a
 * uint16_t, where a refusal would be taken for an answer.
 *
 * A pointer to what is answered may be NULL where it isn't wanted, and so may a text, keys, bytes
 * or rows, which are none then; other pointers may not. No pointer is kept, but by a reader.
 * Nobody else may write to a state, a journal or a reader during a call, nor read what it changes:
 * functions that take a const state may be called at once.
 *
 * An edit, which is N, K, G, T, L or D, names a live thread, whose user is the editor, so a host
 * starts a thread before its first edit. It vouches for the user in S and in the lock list only.
 */
#ifndef ROTUNDAALOE_H
#define ROTUNDAALOE_H

#include "rotundaaloe_raw.h"

#include <stdbool.h>
#include <string.h>

/* A refusal that a host doesn't look at is a warning, where the compiler can tell. */
#if defined(__GNUC__)
#define ROTUNDAALOE_CHECKED __attribute__((warn_unused_result)) static inline
#elif (defined(__cplusplus) && __cplusplus >= 201703L) || \
    (defined(__STDC_VERSION__) && __STDC_VERSION__ >= 202311L)
#define ROTUNDAALOE_CHECKED [[nodiscard]] static inline
#else
#define ROTUNDAALOE_CHECKED static inline
#endif

/* ---- Version ---- */

#define ROTUNDAALOE_VERSION_MAJOR 0
#define ROTUNDAALOE_VERSION_MINOR 2
#define ROTUNDAALOE_VERSION_PATCH 0
#define ROTUNDAALOE_VERSION_TEXT "0.2.0"

/* Two digits a part: 200. */
#define ROTUNDAALOE_VERSION                                                \
    (ROTUNDAALOE_VERSION_MAJOR * 10000 + ROTUNDAALOE_VERSION_MINOR * 100 + \
     ROTUNDAALOE_VERSION_PATCH)

/* The linked library's version, to be compared with ROTUNDAALOE_VERSION, this header's. */
static inline uint32_t rotundaaloe_version(void)
{
    return rotundaaloe_raw_version();
}

/* ---- Names for numbers ---- */

/* What a segment is. */
enum { ROTUNDAALOE_CODE = 0, ROTUNDAALOE_SHEET = 1 };

/* The operations of a lock, added up, and that of an access: read or write. */
enum {
    ROTUNDAALOE_EXECUTE = 1,
    ROTUNDAALOE_READ = 2,
    ROTUNDAALOE_WRITE = 4,
    ROTUNDAALOE_DENY = 8 /* of a lock alone: it denies them */
};

/* Why something is refused, with document 01's numbers and words, and document 02's from 19 on. */
enum rotundaaloe_refusal {
    ROTUNDAALOE_ACCEPTED = 0,        /* accepted */
    ROTUNDAALOE_UNKNOWN_USER = 1,    /* stranger */
    ROTUNDAALOE_NO_THREAD = 2,       /* no run */
    ROTUNDAALOE_NO_SEGMENT = 3,      /* no segment */
    ROTUNDAALOE_NO_KEY = 4,          /* no key */
    ROTUNDAALOE_NO_LOCK = 5,         /* no lock */
    ROTUNDAALOE_NOT_OWNER = 6,       /* not yours */
    ROTUNDAALOE_UNFIT = 7,           /* unfit */
    ROTUNDAALOE_ALREADY_PRESENT = 8, /* already in */
    ROTUNDAALOE_NOT_PRESENT = 9,     /* not there */
    ROTUNDAALOE_FULL = 10,           /* full */
    ROTUNDAALOE_MALFORMED = 11,      /* misspelt */
    ROTUNDAALOE_TOO_WIDE = 12,       /* too wide */
    ROTUNDAALOE_UNSATISFIABLE = 13,  /* void */
    ROTUNDAALOE_DENIED = 14,         /* barred */
    ROTUNDAALOE_NOT_GRANTED = 15,    /* no way in */
    ROTUNDAALOE_NOT_JOURNAL = 16,    /* not a desk file */
    ROTUNDAALOE_OTHER_VERSION = 17,  /* other version */
    ROTUNDAALOE_CORRUPT = 18,        /* broken file */
    ROTUNDAALOE_TOO_FEW_ROWS = 19    /* too few rows */
};

/* The words above, and "unknown" for what is no refusal. Never NULL. */
static inline const char *rotundaaloe_refusal_text(unsigned refusal)
{
    static const char *const words[] = {
        "accepted",  "stranger",        "no run",        "no segment",  "no key",
        "no lock",   "not yours",       "unfit",         "already in",  "not there",
        "full",      "misspelt",        "too wide",      "void",        "barred",
        "no way in", "not a desk file", "other version", "broken file", "too few rows",
    };
    return refusal < sizeof words / sizeof words[0] ? words[refusal] : "unknown";
}

/* ---- For this header alone ---- */

/* The exported functions never get NULL. */
static inline const uint8_t *rotundaaloe_private_bytes(const uint8_t *bytes)
{
    static const uint8_t none = 0;
    return bytes != NULL ? bytes : &none;
}

static inline size_t rotundaaloe_private_length(const void *start, size_t length)
{
    return start != NULL ? length : 0;
}

/* Takes refusal * 65536 + second, or an answer below 65536, apart. */
ROTUNDAALOE_CHECKED unsigned rotundaaloe_private_answer(uint32_t number, uint16_t *answer,
                                                        uint16_t *denying)
{
    const unsigned refusal = number >> 16;
    uint16_t *to = NULL;
    if (refusal == ROTUNDAALOE_ACCEPTED)
        to = answer;
    else if (refusal == ROTUNDAALOE_DENIED)
        to = denying;
    if (to != NULL)
        *to = (uint16_t)(number & 0xFFFF);
    return refusal;
}

/* ---- The state ---- */

/* The state before any call. */
static inline void rotundaaloe_empty(struct rotundaaloe_state *state)
{
    rotundaaloe_raw_empty(state->registry, state->makers, state->segments, state->locks,
                          state->threads);
}

/* So many of each kind. */
struct rotundaaloe_numbers {
    uint32_t users, threads, segments, keys, locks;
};

/* How many numbers of each kind can still be handed out. */
static inline void rotundaaloe_left(const struct rotundaaloe_state *state,
                                    struct rotundaaloe_numbers *left)
{
    uint32_t numbers[5];
    if (left == NULL)
        return;
    rotundaaloe_raw_left(state->registry, numbers);
    left->users = numbers[0];
    left->threads = numbers[1];
    left->segments = numbers[2];
    left->keys = numbers[3];
    left->locks = numbers[4];
}

/* ---- Records: the twelve calls as a journal keeps them ---- */

/*
 * Fields that the letter doesn't name are 0, and only L has a text, of which a record has its own
 * copy. Of a text that is too long it has one byte more than fits: it is refused as the whole is.
 */
struct rotundaaloe_record {
    uint8_t letter;
    uint16_t a, b, c;
    size_t text_length;
    uint8_t text[ROTUNDAALOE_MOST_TEXT + 1];
};

/* A record's text's length, at most one byte more than fits. */
static inline size_t rotundaaloe_private_text_length(const struct rotundaaloe_record *record)
{
    const size_t most = sizeof record->text;
    return record->text_length < most ? record->text_length : most;
}

/* The bytes before a string's end, at most one more than fits; none of NULL. */
static inline size_t rotundaaloe_private_string_length(const char *text)
{
    size_t length = 0;
    while (text != NULL && length <= ROTUNDAALOE_MOST_TEXT && text[length] != 0)
        length++;
    return length;
}

static inline struct rotundaaloe_record rotundaaloe_private_record(uint8_t letter, uint16_t a,
                                                                   uint16_t b, uint16_t c)
{
    struct rotundaaloe_record record;
    memset(&record, 0, sizeof record);
    record.letter = letter;
    record.a = a;
    record.b = b;
    record.c = c;
    return record;
}

static inline void rotundaaloe_private_put_text(struct rotundaaloe_record *record,
                                                const void *text, size_t length)
{
    record->text_length = length;
    if (length > 0)
        memcpy(record->text, text, rotundaaloe_private_text_length(record));
}

static inline struct rotundaaloe_record rotundaaloe_record_new_user(void)
{
    return rotundaaloe_private_record('U', 0, 0, 0);
}

static inline struct rotundaaloe_record rotundaaloe_record_start_thread(uint16_t user)
{
    return rotundaaloe_private_record('S', user, 0, 0);
}

static inline struct rotundaaloe_record rotundaaloe_record_end_thread(uint16_t thread)
{
    return rotundaaloe_private_record('E', thread, 0, 0);
}

static inline struct rotundaaloe_record rotundaaloe_record_new_segment(uint16_t thread,
                                                                       uint16_t kind)
{
    return rotundaaloe_private_record('N', thread, kind, 0);
}

static inline struct rotundaaloe_record rotundaaloe_record_new_key(uint16_t thread)
{
    return rotundaaloe_private_record('K', thread, 0, 0);
}

static inline struct rotundaaloe_record rotundaaloe_record_give_key(uint16_t thread,
                                                                    uint16_t segment,
                                                                    uint16_t key)
{
    return rotundaaloe_private_record('G', thread, segment, key);
}

static inline struct rotundaaloe_record rotundaaloe_record_take_key(uint16_t thread,
                                                                    uint16_t segment,
                                                                    uint16_t key)
{
    return rotundaaloe_private_record('T', thread, segment, key);
}

static inline struct rotundaaloe_record rotundaaloe_record_add_lock(uint16_t thread,
                                                                    uint16_t segment,
                                                                    uint16_t operations,
                                                                    const char *text)
{
    struct rotundaaloe_record record = rotundaaloe_private_record('L', thread, segment, operations);
    rotundaaloe_private_put_text(&record, text, rotundaaloe_private_string_length(text));
    return record;
}

static inline struct rotundaaloe_record rotundaaloe_record_drop_lock(uint16_t thread, uint16_t lock)
{
    return rotundaaloe_private_record('D', thread, lock, 0);
}

static inline struct rotundaaloe_record rotundaaloe_record_call_segment(uint16_t thread,
                                                                        uint16_t segment)
{
    return rotundaaloe_private_record('C', thread, segment, 0);
}

static inline struct rotundaaloe_record rotundaaloe_record_return_call(uint16_t thread)
{
    return rotundaaloe_private_record('R', thread, 0, 0);
}

static inline struct rotundaaloe_record rotundaaloe_record_access(uint16_t thread, uint16_t segment,
                                                                  uint16_t operation)
{
    return rotundaaloe_private_record('A', thread, segment, operation);
}

/*
 * Any call, as a record. What the answer is depends on the letter: a user, a lock, a count.
 * denying is the lowest deny lock that opened, and written with ROTUNDAALOE_DENIED alone. An
 * unknown letter, a field that is not 0 where its call has none, or a text outside L is
 * ROTUNDAALOE_CORRUPT, before all else.
 */
ROTUNDAALOE_CHECKED unsigned rotundaaloe_call(struct rotundaaloe_state *state,
                                              const struct rotundaaloe_record *record,
                                              uint16_t *answer, uint16_t *denying)
{
    const uint32_t number = rotundaaloe_raw_call(
        state->registry, state->makers, state->segments, state->locks, state->threads,
        record->letter, record->a, record->b, record->c, record->text,
        rotundaaloe_private_text_length(record));
    return rotundaaloe_private_answer(number, answer, denying);
}

/* ---- The twelve calls ---- */

/* U: a new user. Refused: 10. */
ROTUNDAALOE_CHECKED unsigned rotundaaloe_new_user(struct rotundaaloe_state *state, uint16_t *user)
{
    const struct rotundaaloe_record record = rotundaaloe_record_new_user();
    return rotundaaloe_call(state, &record, user, NULL);
}

/* S: the user's new thread; an edit that names it is this user's. Refused: 1, 10. */
ROTUNDAALOE_CHECKED unsigned rotundaaloe_start_thread(struct rotundaaloe_state *state,
                                                      uint16_t user, uint16_t *thread)
{
    const struct rotundaaloe_record record = rotundaaloe_record_start_thread(user);
    return rotundaaloe_call(state, &record, thread, NULL);
}

/* E: ends the thread. closed: the open calls that this closes. Refused: 2. */
ROTUNDAALOE_CHECKED unsigned rotundaaloe_end_thread(struct rotundaaloe_state *state,
                                                    uint16_t thread, uint16_t *closed)
{
    const struct rotundaaloe_record record = rotundaaloe_record_end_thread(thread);
    return rotundaaloe_call(state, &record, closed, NULL);
}

/*
 * N: a new segment, ROTUNDAALOE_CODE or ROTUNDAALOE_SHEET, whose owner is the thread's user.
 * Refused: 2, 7, 10.
 */
ROTUNDAALOE_CHECKED unsigned rotundaaloe_new_segment(struct rotundaaloe_state *state,
                                                     uint16_t thread, uint16_t kind,
                                                     uint16_t *segment)
{
    const struct rotundaaloe_record record = rotundaaloe_record_new_segment(thread, kind);
    return rotundaaloe_call(state, &record, segment, NULL);
}

/* K: a new defined key, whose maker is the thread's user. Refused: 2, 10. */
ROTUNDAALOE_CHECKED unsigned rotundaaloe_new_key(struct rotundaaloe_state *state, uint16_t thread,
                                                 uint16_t *key)
{
    const struct rotundaaloe_record record = rotundaaloe_record_new_key(thread);
    return rotundaaloe_call(state, &record, key, NULL);
}

/*
 * G: puts the key into the segment's list, for calls to come; an open call doesn't get it. keys:
 * those now in the list. Refused: 2, 3, 4, 6, 8, 10.
 */
ROTUNDAALOE_CHECKED unsigned rotundaaloe_give_key(struct rotundaaloe_state *state, uint16_t thread,
                                                  uint16_t segment, uint16_t key, uint16_t *keys)
{
    const struct rotundaaloe_record record = rotundaaloe_record_give_key(thread, segment, key);
    return rotundaaloe_call(state, &record, keys, NULL);
}

/*
 * T: takes the key out of the segment's list, and from every open call of the segment, in every
 * thread. keys: those now in the list. Refused: 2, 3, 4, 6, 9.
 */
ROTUNDAALOE_CHECKED unsigned rotundaaloe_take_key(struct rotundaaloe_state *state, uint16_t thread,
                                                  uint16_t segment, uint16_t key, uint16_t *keys)
{
    const struct rotundaaloe_record record = rotundaaloe_record_take_key(thread, segment, key);
    return rotundaaloe_call(state, &record, keys, NULL);
}

/*
 * L: a new lock on the segment, for these operations, with this formula, a string. Refused:
 * 2, 3, 6, 7, 10, 11, 12, 13.
 */
ROTUNDAALOE_CHECKED unsigned rotundaaloe_add_lock(struct rotundaaloe_state *state, uint16_t thread,
                                                  uint16_t segment, uint16_t operations,
                                                  const char *text, uint16_t *lock)
{
    const struct rotundaaloe_record record =
        rotundaaloe_record_add_lock(thread, segment, operations, text);
    return rotundaaloe_call(state, &record, lock, NULL);
}

/* D: drops the lock. products: those that this removes. Refused: 2, 5, 6. */
ROTUNDAALOE_CHECKED unsigned rotundaaloe_drop_lock(struct rotundaaloe_state *state, uint16_t thread,
                                                   uint16_t lock, uint16_t *products)
{
    const struct rotundaaloe_record record = rotundaaloe_record_drop_lock(thread, lock);
    return rotundaaloe_call(state, &record, products, NULL);
}

/*
 * C: the thread calls the segment. lock: the tightest that opened; denying: the lowest deny lock
 * that opened, written with 14 alone. Refused: 2, 3, 7, 10, 14, 15.
 */
ROTUNDAALOE_CHECKED unsigned rotundaaloe_call_segment(struct rotundaaloe_state *state,
                                                      uint16_t thread, uint16_t segment,
                                                      uint16_t *lock, uint16_t *denying)
{
    const struct rotundaaloe_state *read = state;
    const uint32_t number = rotundaaloe_raw_call_segment(read->registry, read->segments,
                                                         read->locks, state->threads, thread,
                                                         segment);
    return rotundaaloe_private_answer(number, lock, denying);
}

/* R: the thread returns from its newest open call. segment: the one it leaves. Refused: 2, 9. */
ROTUNDAALOE_CHECKED unsigned rotundaaloe_return_call(struct rotundaaloe_state *state,
                                                     uint16_t thread, uint16_t *segment)
{
    return rotundaaloe_private_answer(rotundaaloe_raw_return_call(state->threads, thread), segment,
                                      NULL);
}

/*
 * A: the thread reads or writes the segment, ROTUNDAALOE_READ or ROTUNDAALOE_WRITE. lock and
 * denying as in a call. Refused: 2, 3, 7, 14, 15.
 */
ROTUNDAALOE_CHECKED unsigned rotundaaloe_access(
    const struct rotundaaloe_state *state, uint16_t thread, uint16_t segment, uint16_t operation,
    uint16_t *lock, uint16_t *denying)
{
    const uint32_t number = rotundaaloe_raw_access(state->registry, state->segments, state->locks,
                                                   state->threads, thread, segment, operation);
    return rotundaaloe_private_answer(number, lock, denying);
}

/* ---- The lock list ---- */

/* A key that must be held or, barred, must not be. Its kind is 'U', 'R', 'S' or 'D'; 0 is blank. */
struct rotundaaloe_key {
    uint16_t kind, number, barred;
};

/*
 * A product of a lock, for the segment's owner, or a whole lock, for anyone else, whose keys are
 * blank. The operations are ROTUNDAALOE_EXECUTE, READ and WRITE, added up, without the DENY of a
 * deny lock: deny is 1 then, and else 0. The keys stand in the product's order, blank ones last.
 */
struct rotundaaloe_lock_row {
    uint16_t lock, operations, deny;
    struct rotundaaloe_key keys[ROTUNDAALOE_MOST_LITERALS];
};

/* A row as the layer below writes it, and an error of the compiler where a struct is padded. */
typedef uint16_t rotundaaloe_private_row[1 + ROTUNDAALOE_MOST_LITERALS][3];
typedef char rotundaaloe_private_row_fits
    [sizeof(struct rotundaaloe_lock_row) == sizeof(rotundaaloe_private_row) ? 1 : -1];

/*
 * The segment's standing locks, by rising number, as the user may see them: a row for each product
 * for its owner, and one for each lock for anyone else. filled: how many of the lent rows, from the
 * first on; the others stay as they were, and so do all where it is refused. No list needs more
 * than ROTUNDAALOE_MOST_PRODUCTS. The host vouches for the user. Refused: 1, 3, 19.
 */
ROTUNDAALOE_CHECKED unsigned rotundaaloe_list_locks(const struct rotundaaloe_state *state,
                                                    uint16_t user, uint16_t segment,
                                                    struct rotundaaloe_lock_row *rows, size_t lent,
                                                    uint16_t *filled)
{
    struct rotundaaloe_lock_row none;
    const uint32_t number = rotundaaloe_raw_list_locks(
        state->registry, state->segments, state->locks, user, segment,
        (rotundaaloe_private_row *)(rows != NULL ? rows : &none),
        rotundaaloe_private_length(rows, lent));
    return rotundaaloe_private_answer(number, filled, NULL);
}

/* ---- Keys ---- */

/* The keys U, R, S and D of a number, for a key search and for a key set. */
static inline uint32_t rotundaaloe_key_of_user(uint16_t user)
{
    return user;
}

static inline uint32_t rotundaaloe_key_of_thread(uint16_t thread)
{
    return 0x10000u + thread;
}

static inline uint32_t rotundaaloe_key_of_segment(uint16_t segment)
{
    return 0x20000u + segment;
}

static inline uint32_t rotundaaloe_key_defined(uint16_t key)
{
    return 0x30000u + key;
}

/* ---- The key search ---- */

/*
 * Which open call of the thread hands the key over, the newest of several. found: whether one does.
 * place: 0 for the thread's newest open call, 1 for the one before it, and written only where one
 * does. The thread's U and R keys are held, but no call hands them over. Refused: 2.
 */
ROTUNDAALOE_CHECKED unsigned rotundaaloe_find_key(const struct rotundaaloe_state *state,
                                                  uint16_t thread, uint32_t key, bool *found,
                                                  uint16_t *place)
{
    uint16_t answer = ROTUNDAALOE_NO_PLACE;
    const unsigned refusal = rotundaaloe_private_answer(
        rotundaaloe_raw_find_key(state->threads, thread, key), &answer, NULL);
    if (refusal == ROTUNDAALOE_ACCEPTED && found != NULL)
        *found = answer != ROTUNDAALOE_NO_PLACE;
    if (answer != ROTUNDAALOE_NO_PLACE && place != NULL)
        *place = answer;
    return refusal;
}

/* ---- Formulas, without a lock ---- */

/* What a lock's text compiles to. It knows how many products it has; all 0, no keys open it. */
struct rotundaaloe_formula {
    uint32_t rows[ROTUNDAALOE_MOST_PRODUCTS][ROTUNDAALOE_ROW];
    uint32_t products;
};

/* The formula of a string over the keys that the state has handed out. Refused: 11, 12, 13. */
ROTUNDAALOE_CHECKED unsigned rotundaaloe_compile(const struct rotundaaloe_state *state,
                                                 const char *text,
                                                 struct rotundaaloe_formula *formula)
{
    struct rotundaaloe_formula compiled;
    struct rotundaaloe_numbers left;
    rotundaaloe_left(state, &left);
    compiled.products = rotundaaloe_raw_compile(
        rotundaaloe_private_bytes((const uint8_t *)text), rotundaaloe_private_string_length(text),
        ROTUNDAALOE_MOST_USERS - left.users, ROTUNDAALOE_MOST_NUMBERS - left.threads,
        ROTUNDAALOE_MOST_SEGMENTS - left.segments, ROTUNDAALOE_MOST_KEYS - left.keys,
        compiled.rows);
    if (compiled.products > ROTUNDAALOE_MOST_PRODUCTS)
        return compiled.products;
    if (formula != NULL)
        *formula = compiled;
    return ROTUNDAALOE_ACCEPTED;
}

/* Whether a set of so many keys, in any order, opens the formula. */
static inline void rotundaaloe_opens(const struct rotundaaloe_formula *formula,
                                     const uint32_t *keys, size_t count, bool *opens)
{
    static const uint32_t none = 0;
    if (opens != NULL)
        *opens = rotundaaloe_raw_opens(formula->rows, formula->products,
                                       keys != NULL ? keys : &none,
                                       rotundaaloe_private_length(keys, count)) == 1;
}

/* ---- Journals (document 01: desk files) ---- */

/* A file to append to: its first size bytes. */
struct rotundaaloe_journal {
    uint8_t bytes[ROTUNDAALOE_JOURNAL_BYTES];
    size_t size;
};

/* The journal without records. */
static inline void rotundaaloe_journal_empty(struct rotundaaloe_journal *journal)
{
    (void)rotundaaloe_raw_journal_empty(journal->bytes, sizeof journal->bytes);
    journal->size = ROTUNDAALOE_JOURNAL_HEAD;
}

/*
 * Appends a record. Refused: 10 where it would pass 65,535 bytes, 18 for a record that no journal
 * can hold, and 16, 17 or 18 for a journal that was neither emptied nor read.
 */
ROTUNDAALOE_CHECKED unsigned rotundaaloe_journal_append(struct rotundaaloe_journal *journal,
                                                        const struct rotundaaloe_record *record)
{
    return rotundaaloe_raw_journal_append(
        journal->bytes, sizeof journal->bytes, &journal->size, record->letter, record->a,
        record->b, record->c, record->text,
        rotundaaloe_private_text_length(record));
}

/* A file and a cursor in it. The file must stay as it is for as long as it is read. */
struct rotundaaloe_reader {
    const uint8_t *file;
    size_t length, cursor;
};

/* Opens a file, by a check of the whole of it. Refused: 16, 17 for any version but 2, 18. */
ROTUNDAALOE_CHECKED unsigned rotundaaloe_reader_open(struct rotundaaloe_reader *reader,
                                                     const uint8_t *file, size_t length)
{
    struct rotundaaloe_reader opened;
    unsigned refusal;
    opened.file = rotundaaloe_private_bytes(file);
    opened.length = rotundaaloe_private_length(file, length);
    opened.cursor = 0;
    refusal = rotundaaloe_raw_journal_open(opened.file, opened.length, &opened.cursor);
    if (refusal == ROTUNDAALOE_ACCEPTED)
        *reader = opened;
    return refusal;
}

/*
 * The next record: found is false at the end, and then the record is left alone. Refused: 18, of a
 * file that was changed since it was opened.
 */
ROTUNDAALOE_CHECKED unsigned rotundaaloe_reader_next(struct rotundaaloe_reader *reader,
                                                     struct rotundaaloe_record *record, bool *found)
{
    uint64_t values[6];
    const uint32_t number =
        rotundaaloe_raw_journal_next(reader->file, reader->length, &reader->cursor, values);
    if (number > 1)
        return number;
    if (found != NULL)
        *found = number == 1;
    if (number == 1 && record != NULL) {
        *record = rotundaaloe_private_record((uint8_t)values[0], (uint16_t)values[1],
                                             (uint16_t)values[2], (uint16_t)values[3]);
        rotundaaloe_private_put_text(record, reader->file + (size_t)values[4],
                                     (size_t)(values[5] - values[4]));
    }
    return ROTUNDAALOE_ACCEPTED;
}

/* Goes on with a journal that was kept in a file. Refused: 16, 17, 18. */
ROTUNDAALOE_CHECKED unsigned rotundaaloe_journal_from_bytes(struct rotundaaloe_journal *journal,
                                                            const uint8_t *file, size_t length)
{
    struct rotundaaloe_reader reader;
    const unsigned refusal = rotundaaloe_reader_open(&reader, file, length);
    if (refusal == ROTUNDAALOE_ACCEPTED) {
        memmove(journal->bytes, reader.file, reader.length);
        journal->size = reader.length;
    }
    return refusal;
}

/* ---- A state as a file ---- */

/*
 * The bytes 4B 4C 53 0A, the layout 1 (16 bits) and the length of the cells in bytes (32 bits);
 * then the cells, array by array; then the CRC-32 of all bytes before it, which is that of zip and
 * PNG. Numbers stand low byte first, on every machine, and the Rust library writes the same bytes.
 */
#define ROTUNDAALOE_STATE_LAYOUT 1
#define ROTUNDAALOE_STATE_HEAD 10
#define ROTUNDAALOE_STATE_CELLS                                                    \
    (4 * ROTUNDAALOE_ROW + 2 * ROTUNDAALOE_MOST_KEYS +                             \
     2 * ROTUNDAALOE_MOST_SEGMENTS * 2 * ROTUNDAALOE_ROW +                         \
     4 * ROTUNDAALOE_MOST_SEGMENTS * ROTUNDAALOE_MOST_PRODUCTS * ROTUNDAALOE_ROW + \
     2 * ROTUNDAALOE_MOST_THREADS * (1 + ROTUNDAALOE_MOST_OPEN_CALLS) * ROTUNDAALOE_ROW)
#define ROTUNDAALOE_STATE_FILE_BYTES (ROTUNDAALOE_STATE_HEAD + ROTUNDAALOE_STATE_CELLS + 4)

/* A file to be written: all of its bytes. */
struct rotundaaloe_state_file {
    uint8_t bytes[ROTUNDAALOE_STATE_FILE_BYTES];
};

/* The remainders of four bits by the polynomial EDB88320, lowest bit first. */
static inline uint32_t rotundaaloe_private_checksum(const uint8_t *bytes, size_t length)
{
    static const uint32_t remainders[16] = {
        0x00000000, 0x1DB71064, 0x3B6E20C8, 0x26D930AC,
        0x76DC4190, 0x6B6B51F4, 0x4DB26158, 0x5005713C,
        0xEDB88320, 0xF00F9344, 0xD6D6A3E8, 0xCB61B38C,
        0x9B64C2B0, 0x86D3D2D4, 0xA00AE278, 0xBDBDF21C,
    };
    uint32_t rest = 0xFFFFFFFF;
    for (size_t place = 0; place < length; place++) {
        rest ^= bytes[place];
        rest = rest >> 4 ^ remainders[rest & 15];
        rest = rest >> 4 ^ remainders[rest & 15];
    }
    return rest ^ 0xFFFFFFFF;
}

static inline uint8_t *rotundaaloe_private_put(uint8_t *file, uint32_t number, size_t bytes)
{
    for (; bytes > 0; bytes--, number >>= 8)
        *file++ = (uint8_t)(number & 0xFF);
    return file;
}

static inline uint32_t rotundaaloe_private_get(const uint8_t *file, size_t bytes)
{
    uint32_t number = 0;
    while (bytes > 0)
        number = number << 8 | file[--bytes];
    return number;
}

/* An array of numbers of 16 or 32 bits, through its bytes, since it may be one of arrays. */
static inline uint8_t *rotundaaloe_private_put_16(uint8_t *file, const void *cells, size_t size)
{
    for (size_t place = 0; place < size; place += 2) {
        uint16_t cell;
        memcpy(&cell, (const uint8_t *)cells + place, 2);
        file = rotundaaloe_private_put(file, cell, 2);
    }
    return file;
}

static inline uint8_t *rotundaaloe_private_put_32(uint8_t *file, const void *cells, size_t size)
{
    for (size_t place = 0; place < size; place += 4) {
        uint32_t cell;
        memcpy(&cell, (const uint8_t *)cells + place, 4);
        file = rotundaaloe_private_put(file, cell, 4);
    }
    return file;
}

static inline const uint8_t *rotundaaloe_private_get_16(const uint8_t *file, void *cells,
                                                        size_t size)
{
    for (size_t place = 0; place < size; place += 2) {
        const uint16_t cell = (uint16_t)rotundaaloe_private_get(file + place, 2);
        memcpy((uint8_t *)cells + place, &cell, 2);
    }
    return file + size;
}

static inline const uint8_t *rotundaaloe_private_get_32(const uint8_t *file, void *cells,
                                                        size_t size)
{
    for (size_t place = 0; place < size; place += 4) {
        const uint32_t cell = rotundaaloe_private_get(file + place, 4);
        memcpy((uint8_t *)cells + place, &cell, 4);
    }
    return file + size;
}

/* The state as the bytes of a file. */
static inline void rotundaaloe_state_to_file(const struct rotundaaloe_state *state,
                                             struct rotundaaloe_state_file *file)
{
    uint8_t *end = file->bytes;
    memcpy(end, "KLS\n", 4);
    end = rotundaaloe_private_put(end + 4, ROTUNDAALOE_STATE_LAYOUT, 2);
    end = rotundaaloe_private_put(end, ROTUNDAALOE_STATE_CELLS, 4);
    end = rotundaaloe_private_put_32(end, state->registry, sizeof state->registry);
    end = rotundaaloe_private_put_16(end, state->makers, sizeof state->makers);
    end = rotundaaloe_private_put_16(end, state->segments, sizeof state->segments);
    end = rotundaaloe_private_put_32(end, state->locks, sizeof state->locks);
    end = rotundaaloe_private_put_16(end, state->threads, sizeof state->threads);
    rotundaaloe_private_put(
        end, rotundaaloe_private_checksum(file->bytes, (size_t)(end - file->bytes)), 4);
}

ROTUNDAALOE_CHECKED unsigned rotundaaloe_private_state_file(const uint8_t *file, size_t length)
{
    const size_t end = ROTUNDAALOE_STATE_HEAD + ROTUNDAALOE_STATE_CELLS;
    if (length < 4 || memcmp(file, "KLS\n", 4) != 0)
        return ROTUNDAALOE_NOT_JOURNAL;
    if (length < 6)
        return ROTUNDAALOE_CORRUPT;
    if (rotundaaloe_private_get(file + 4, 2) != ROTUNDAALOE_STATE_LAYOUT)
        return ROTUNDAALOE_OTHER_VERSION;
    if (length != end + 4 || rotundaaloe_private_get(file + 6, 4) != ROTUNDAALOE_STATE_CELLS
        || rotundaaloe_private_get(file + end, 4) != rotundaaloe_private_checksum(file, end))
        return ROTUNDAALOE_CORRUPT;
    return ROTUNDAALOE_ACCEPTED;
}

/*
 * The state that a file keeps. Refused: 16 if it doesn't begin with the mark, 17 for another
 * layout, of which nothing more is known, 18 if it is cut, too long or changed.
 */
ROTUNDAALOE_CHECKED unsigned rotundaaloe_state_from_bytes(struct rotundaaloe_state *state,
                                                          const uint8_t *file, size_t length)
{
    const unsigned refusal = rotundaaloe_private_state_file(
        rotundaaloe_private_bytes(file), rotundaaloe_private_length(file, length));
    if (refusal == ROTUNDAALOE_ACCEPTED) {
        const uint8_t *cells = file + ROTUNDAALOE_STATE_HEAD;
        cells = rotundaaloe_private_get_32(cells, state->registry, sizeof state->registry);
        cells = rotundaaloe_private_get_16(cells, state->makers, sizeof state->makers);
        cells = rotundaaloe_private_get_16(cells, state->segments, sizeof state->segments);
        cells = rotundaaloe_private_get_32(cells, state->locks, sizeof state->locks);
        rotundaaloe_private_get_16(cells, state->threads, sizeof state->threads);
    }
    return refusal;
}

#endif
