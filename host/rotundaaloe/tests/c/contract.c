/*
 * What the header promises beyond the calls' answers: what a refusal leaves alone, what may be
 * NULL, formulas, journals and readers. Prints each line that doesn't hold.
 */
#include "rotundaaloe.h"

#include <stdio.h>

#define HOLDS(claim) \
    do { \
        if (!(claim)) \
            printf("%d: %s\n", __LINE__, #claim); \
    } while (0)

static struct rotundaaloe_state state;

/* User 0 with the sheet S0, its grant lock 0 and, where a thread holds R1, its deny lock 1. */
static void make_sheet(void)
{
    rotundaaloe_empty(&state);
    HOLDS(rotundaaloe_new_user(&state, NULL) == ROTUNDAALOE_ACCEPTED);
    HOLDS(rotundaaloe_start_thread(&state, 0, NULL) == ROTUNDAALOE_ACCEPTED);
    HOLDS(rotundaaloe_start_thread(&state, 0, NULL) == ROTUNDAALOE_ACCEPTED);
    HOLDS(rotundaaloe_new_segment(&state, 0, ROTUNDAALOE_SHEET, NULL) == ROTUNDAALOE_ACCEPTED);
    HOLDS(rotundaaloe_add_lock(&state, 0, 0, ROTUNDAALOE_WRITE, "U0", NULL) == 0);
    HOLDS(rotundaaloe_add_lock(&state, 0, 0, ROTUNDAALOE_WRITE | ROTUNDAALOE_DENY, "R1", NULL)
          == 0);
}

static void answers_and_refusals(void)
{
    uint16_t answer = 77, denying = 78;
    make_sheet();
    HOLDS(rotundaaloe_start_thread(&state, 1, &answer) == ROTUNDAALOE_UNKNOWN_USER);
    HOLDS(rotundaaloe_access(&state, 0, 0, ROTUNDAALOE_READ, &answer, &denying)
          == ROTUNDAALOE_NOT_GRANTED);
    HOLDS(answer == 77 && denying == 78);
    HOLDS(rotundaaloe_access(&state, 1, 0, ROTUNDAALOE_WRITE, &answer, &denying)
          == ROTUNDAALOE_DENIED);
    HOLDS(answer == 77 && denying == 1);
    denying = 78;
    HOLDS(rotundaaloe_access(&state, 0, 0, ROTUNDAALOE_WRITE, &answer, &denying)
          == ROTUNDAALOE_ACCEPTED);
    HOLDS(answer == 0 && denying == 78);
    HOLDS(rotundaaloe_access(&state, 1, 0, ROTUNDAALOE_WRITE, NULL, NULL) == ROTUNDAALOE_DENIED);
    HOLDS(rotundaaloe_call_segment(&state, 0, 0, NULL, NULL) == ROTUNDAALOE_UNFIT);
    HOLDS(rotundaaloe_return_call(&state, 0, NULL) == ROTUNDAALOE_NOT_PRESENT);
    HOLDS(rotundaaloe_add_lock(&state, 0, 0, ROTUNDAALOE_READ, NULL, NULL)
          == ROTUNDAALOE_MALFORMED);
    HOLDS(rotundaaloe_add_lock(&state, 0, 0, ROTUNDAALOE_READ, "", NULL) == ROTUNDAALOE_MALFORMED);
}

/* The six edits by a thread, which must all be refused, each with the same. */
static void no_edit(uint16_t thread, unsigned refusal)
{
    uint16_t answer = 77;
    HOLDS(rotundaaloe_new_segment(&state, thread, 2, &answer) == refusal);
    HOLDS(rotundaaloe_new_key(&state, thread, &answer) == refusal);
    HOLDS(rotundaaloe_give_key(&state, thread, 9, 9, &answer) == refusal);
    HOLDS(rotundaaloe_take_key(&state, thread, 9, 9, &answer) == refusal);
    HOLDS(rotundaaloe_add_lock(&state, thread, 9, 0, "", &answer) == refusal);
    HOLDS(rotundaaloe_drop_lock(&state, thread, 9, &answer) == refusal);
    HOLDS(answer == 77);
}

/*
 * Document 02, P4: who edits is the thread's user. User 1 has threads 0 and 2, user 0 thread 1, so
 * no thread has its user's number.
 */
static void editors(void)
{
    const uint16_t users[3] = {1, 0, 1};
    uint16_t answer = 77;
    rotundaaloe_empty(&state);
    no_edit(0, ROTUNDAALOE_NO_THREAD);
    HOLDS(rotundaaloe_new_user(&state, NULL) == 0 && rotundaaloe_new_user(&state, NULL) == 0);
    no_edit(0, ROTUNDAALOE_NO_THREAD);
    for (uint16_t thread = 0; thread < 3; thread++)
        HOLDS(rotundaaloe_start_thread(&state, users[thread], NULL) == ROTUNDAALOE_ACCEPTED);
    no_edit(3, ROTUNDAALOE_NO_THREAD);
    HOLDS(rotundaaloe_new_segment(&state, 0, ROTUNDAALOE_SHEET, NULL) == ROTUNDAALOE_ACCEPTED);
    HOLDS(rotundaaloe_new_key(&state, 0, NULL) == ROTUNDAALOE_ACCEPTED);
    HOLDS(rotundaaloe_end_thread(&state, 0, NULL) == ROTUNDAALOE_ACCEPTED);
    no_edit(0, ROTUNDAALOE_NO_THREAD);
    HOLDS(rotundaaloe_give_key(&state, 1, 0, 0, NULL) == ROTUNDAALOE_NOT_OWNER);
    HOLDS(rotundaaloe_give_key(&state, 2, 0, 0, &answer) == ROTUNDAALOE_ACCEPTED && answer == 2);
    HOLDS(rotundaaloe_take_key(&state, 1, 0, 0, NULL) == ROTUNDAALOE_NOT_OWNER);
    HOLDS(rotundaaloe_take_key(&state, 2, 0, 0, &answer) == ROTUNDAALOE_ACCEPTED && answer == 1);
    HOLDS(rotundaaloe_add_lock(&state, 1, 0, ROTUNDAALOE_READ, "U0", NULL)
          == ROTUNDAALOE_NOT_OWNER);
    HOLDS(rotundaaloe_add_lock(&state, 2, 0, ROTUNDAALOE_READ, "U0", &answer) == 0 && answer == 0);
    HOLDS(rotundaaloe_drop_lock(&state, 1, 0, NULL) == ROTUNDAALOE_NOT_OWNER);
    HOLDS(rotundaaloe_drop_lock(&state, 2, 0, &answer) == ROTUNDAALOE_ACCEPTED && answer == 1);
}

static void records_of_no_call(void)
{
    struct rotundaaloe_record record = rotundaaloe_record_new_user();
    uint16_t answer = 77;
    rotundaaloe_empty(&state);
    record.letter = 'X';
    HOLDS(rotundaaloe_call(&state, &record, &answer, NULL) == ROTUNDAALOE_CORRUPT);
    record = rotundaaloe_record_new_user();
    record.a = 1;
    HOLDS(rotundaaloe_call(&state, &record, &answer, NULL) == ROTUNDAALOE_CORRUPT);
    record = rotundaaloe_record_new_user();
    memcpy(record.text, "U0", 2);
    record.text_length = 2;
    HOLDS(rotundaaloe_call(&state, &record, &answer, NULL) == ROTUNDAALOE_CORRUPT);
    HOLDS(answer == 77);
    record.text_length = 0;
    HOLDS(rotundaaloe_call(&state, &record, &answer, NULL) == ROTUNDAALOE_ACCEPTED && answer == 0);
}

/* A record has its own copy of a text, and of one that is too long enough to be refused. */
static void texts_of_records(void)
{
    char text[200] = "U0";
    struct rotundaaloe_record record;
    make_sheet();
    record = rotundaaloe_record_add_lock(0, 0, ROTUNDAALOE_READ, text);
    memset(text, '!', sizeof text);
    HOLDS(record.text_length == 2 && memcmp(record.text, "U0", 3) == 0);
    HOLDS(rotundaaloe_call(&state, &record, NULL, NULL) == ROTUNDAALOE_ACCEPTED);
    memcpy(text + 94, "U0", 3);
    record = rotundaaloe_record_add_lock(0, 0, ROTUNDAALOE_READ, text);
    HOLDS(record.text_length == 96);
    HOLDS(rotundaaloe_call(&state, &record, NULL, NULL) == ROTUNDAALOE_ACCEPTED);
    HOLDS(rotundaaloe_compile(&state, text, NULL) == ROTUNDAALOE_ACCEPTED);
    memset(text, '!', sizeof text);
    for (size_t length = 97; length < sizeof text; length++) {
        memcpy(text + length - 2, "U0", 3);
        record = rotundaaloe_record_add_lock(0, 0, ROTUNDAALOE_READ, text);
        HOLDS(record.text_length == 97);
        HOLDS(rotundaaloe_call(&state, &record, NULL, NULL) == ROTUNDAALOE_MALFORMED);
        HOLDS(rotundaaloe_compile(&state, text, NULL) == ROTUNDAALOE_MALFORMED);
        memset(text, '!', sizeof text);
    }
    record.text_length = SIZE_MAX;
    HOLDS(rotundaaloe_call(&state, &record, NULL, NULL) == ROTUNDAALOE_MALFORMED);
}

/* The products of a text, or 100 and the refusal. */
static unsigned compiled(const char *text)
{
    static struct rotundaaloe_formula formula;
    const unsigned refusal =
        rotundaaloe_compile(&state, text, &formula);
    return refusal == ROTUNDAALOE_ACCEPTED ? formula.products : 100u + refusal;
}

/* Document 01's trials of lock texts. */
static void formulas(void)
{
    rotundaaloe_empty(&state);
    HOLDS(compiled("U0") == 111);
    HOLDS(rotundaaloe_new_user(&state, NULL) == ROTUNDAALOE_ACCEPTED);
    HOLDS(compiled("U0") == 1 && compiled("R0") == 111 && compiled("S0") == 111);
    HOLDS(rotundaaloe_start_thread(&state, 0, NULL) == ROTUNDAALOE_ACCEPTED);
    HOLDS(compiled("R0") == 1 && compiled("S0") == 111 && compiled("D0") == 111);
    for (int keys = 0; keys < 9; keys++)
        HOLDS(rotundaaloe_new_key(&state, 0, NULL) == ROTUNDAALOE_ACCEPTED);
    HOLDS(compiled("D8") == 1 && compiled("D9") == 111 && compiled("S0") == 111);
    HOLDS(rotundaaloe_new_segment(&state, 0, ROTUNDAALOE_CODE, NULL) == ROTUNDAALOE_ACCEPTED);
    HOLDS(compiled("S0") == 1 && compiled("S1") == 111);
    HOLDS(compiled("D0&!D0") == 113 && compiled("(D0&!D0)|D1") == 1 && compiled("D0|D0&D1") == 2);
    HOLDS(compiled("!(D0|D1)") == 1 && compiled("D01") == 111 && compiled("") == 111);
    HOLDS(compiled("(D0|D1)&(D2|D3)") == 4);
    HOLDS(compiled("D0|D1|D2|D3|D4|D5|D6|D7") == 8);
    HOLDS(compiled("D0|D1|D2|D3|D4|D5|D6|D7|D8") == 112);
    HOLDS(compiled("D0&D1&D2&D3&D4&D5") == 1 && compiled("D0&D1&D2&D3&D4&D5&D6") == 112);
}

static bool opens(const char *text, const uint32_t *keys, size_t count)
{
    struct rotundaaloe_formula formula;
    bool answer = false;
    HOLDS(rotundaaloe_compile(&state, text, &formula) == ROTUNDAALOE_ACCEPTED);
    rotundaaloe_opens(&formula, keys, count, &answer);
    return answer;
}

/* In the state that the formulas leave. */
static void key_sets(void)
{
    const uint32_t keys[4] = {rotundaaloe_key_defined(0), rotundaaloe_key_of_segment(0),
                              rotundaaloe_key_of_thread(0), rotundaaloe_key_of_user(0)};
    struct rotundaaloe_formula formula;
    bool answer = true;
    HOLDS(!opens("D0&S0", keys, 1) && opens("D0&S0", keys, 2));
    HOLDS(!opens("R0", keys, 2) && opens("R0", keys, 3));
    HOLDS(!opens("U0", keys, 3) && opens("U0", keys, 4));
    HOLDS(!opens("!D0", keys, 1) && opens("!D0", NULL, 0) && opens("!D0", NULL, 4));
    HOLDS(!opens("D0&S0", NULL, 0) && !opens("D0|S0", NULL, 0) && !opens("U0", NULL, 1));
    memset(&formula, 0, sizeof formula);
    HOLDS(rotundaaloe_compile(&state, NULL, &formula) == ROTUNDAALOE_MALFORMED);
    HOLDS(formula.products == 0);
    rotundaaloe_opens(&formula, keys, 4, &answer);
    HOLDS(!answer);
    rotundaaloe_opens(&formula, keys, 4, NULL);
    HOLDS(rotundaaloe_compile(&state, "D0", NULL) == ROTUNDAALOE_ACCEPTED);
    HOLDS(rotundaaloe_compile(&state, "D99", NULL) == ROTUNDAALOE_MALFORMED);
}

static void what_is_left(void)
{
    struct rotundaaloe_numbers left;
    rotundaaloe_empty(&state);
    rotundaaloe_left(&state, &left);
    HOLDS(left.users == 32 && left.threads == 65536 && left.segments == 64);
    HOLDS(left.keys == 1024 && left.locks == 65536);
    make_sheet();
    HOLDS(rotundaaloe_new_key(&state, 0, NULL) == ROTUNDAALOE_ACCEPTED);
    HOLDS(rotundaaloe_end_thread(&state, 0, NULL) == ROTUNDAALOE_ACCEPTED);
    HOLDS(rotundaaloe_start_thread(&state, 0, NULL) == ROTUNDAALOE_ACCEPTED);
    rotundaaloe_left(&state, &left);
    HOLDS(left.users == 31 && left.threads == 65533 && left.segments == 63);
    HOLDS(left.keys == 1023 && left.locks == 65534);
    rotundaaloe_left(&state, NULL);
}

/* 7 bytes, then 9 for each of 7280 returns: 8 more are left, and one record needs 9. */
static void full_journal(void)
{
    static struct rotundaaloe_journal journal, before;
    const struct rotundaaloe_record record = rotundaaloe_record_return_call(3);
    struct rotundaaloe_record wrong = record;
    HOLDS(rotundaaloe_journal_append(&journal, &record) == ROTUNDAALOE_NOT_JOURNAL);
    rotundaaloe_journal_empty(&journal);
    HOLDS(journal.size == 7 && memcmp(journal.bytes, "KLD\2\0\0\0", 7) == 0);
    wrong.b = 1;
    HOLDS(rotundaaloe_journal_append(&journal, &wrong) == ROTUNDAALOE_CORRUPT);
    for (int place = 0; place < 7280; place++)
        HOLDS(rotundaaloe_journal_append(&journal, &record) == ROTUNDAALOE_ACCEPTED);
    HOLDS(journal.size == 65527);
    before = journal;
    HOLDS(rotundaaloe_journal_append(&journal, &record) == ROTUNDAALOE_FULL);
    HOLDS(memcmp(&journal, &before, sizeof journal) == 0);
    HOLDS(rotundaaloe_journal_from_bytes(&journal, before.bytes, 65526) == ROTUNDAALOE_CORRUPT);
    HOLDS(memcmp(&journal, &before, sizeof journal) == 0);
    rotundaaloe_journal_empty(&journal);
    HOLDS(rotundaaloe_journal_from_bytes(&journal, before.bytes, 65527) == ROTUNDAALOE_ACCEPTED);
    HOLDS(memcmp(&journal, &before, sizeof journal) == 0);
}

static void readers(void)
{
    static const char file[] = "KLD\2\0\1\0L\1\0\2\0\3\0\2\0U0";
    static const char empty[] = "KLD\2\0\0\0";
    static const char older[] = "KLD\1\0\0\0";
    struct rotundaaloe_reader reader = {NULL, 5, 6};
    struct rotundaaloe_record record = rotundaaloe_record_new_user();
    bool found = true;
    HOLDS(rotundaaloe_reader_open(&reader, NULL, 9) == ROTUNDAALOE_NOT_JOURNAL);
    HOLDS(rotundaaloe_reader_open(&reader, (const uint8_t *)file, 17) == ROTUNDAALOE_CORRUPT);
    HOLDS(rotundaaloe_reader_open(&reader, (const uint8_t *)older, 7) == ROTUNDAALOE_OTHER_VERSION);
    HOLDS(reader.file == NULL && reader.length == 5 && reader.cursor == 6);
    HOLDS(rotundaaloe_reader_open(&reader, (const uint8_t *)empty, 7) == ROTUNDAALOE_ACCEPTED);
    HOLDS(rotundaaloe_reader_next(&reader, &record, &found) == ROTUNDAALOE_ACCEPTED);
    HOLDS(!found && record.letter == 'U');
    HOLDS(rotundaaloe_reader_next(&reader, NULL, NULL) == ROTUNDAALOE_ACCEPTED);
    HOLDS(rotundaaloe_reader_open(&reader, (const uint8_t *)file, 18) == ROTUNDAALOE_ACCEPTED);
    HOLDS(rotundaaloe_reader_next(&reader, &record, &found) == ROTUNDAALOE_ACCEPTED);
    HOLDS(found && record.letter == 'L' && record.a == 1 && record.b == 2 && record.c == 3);
    HOLDS(record.text_length == 2 && memcmp(record.text, "U0", 2) == 0);
    HOLDS(rotundaaloe_reader_next(&reader, &record, &found) == ROTUNDAALOE_ACCEPTED && !found);
    reader.cursor = 8;
    HOLDS(rotundaaloe_reader_next(&reader, &record, &found) == ROTUNDAALOE_CORRUPT);
}

static void words(void)
{
    HOLDS(strcmp(rotundaaloe_refusal_text(ROTUNDAALOE_ACCEPTED), "accepted") == 0);
    HOLDS(strcmp(rotundaaloe_refusal_text(20), "unknown") == 0);
    HOLDS(strcmp(rotundaaloe_refusal_text((unsigned)-1), "unknown") == 0);
    HOLDS(rotundaaloe_version() == ROTUNDAALOE_VERSION);
    for (unsigned refusal = 1; refusal <= 19; refusal++)
        printf("%u %s\n", refusal, rotundaaloe_refusal_text(refusal));
}

int main(void)
{
    answers_and_refusals();
    editors();
    records_of_no_call();
    texts_of_records();
    formulas();
    key_sets();
    what_is_left();
    full_journal();
    readers();
    words();
    return 0;
}
