/*
 * The lock list in C: worked examples by hand from document 02, P1. Prints each line that doesn't
 * hold.
 */
#include "rotundaaloe.h"

#include <stdio.h>

#define HOLDS(claim) \
    do { \
        if (!(claim)) \
            printf("%d: %s\n", __LINE__, #claim); \
    } while (0)

enum { OWNER, COLLEAGUE, STRANGER };
/* The colleague's thread, and the owner's. */
enum { VISITOR, EDITOR };
enum { CODE, SHEET, NOWHERE };

/* One row more than a list ever needs. */
enum { LENT = ROTUNDAALOE_MOST_PRODUCTS + 1 };

static struct rotundaaloe_state state;
static struct rotundaaloe_lock_row rows[LENT], before[LENT];
static uint16_t filled;

static void lock(uint16_t operations, const char *text)
{
    HOLDS(rotundaaloe_add_lock(&state, EDITOR, SHEET, operations, text, NULL) == 0);
}

/* The owner has code and a sheet, with lock 0 of one product, lock 1 of two and deny lock 2. */
static void make_office(void)
{
    rotundaaloe_empty(&state);
    HOLDS(rotundaaloe_new_user(&state, NULL) == 0 && rotundaaloe_new_user(&state, NULL) == 0);
    HOLDS(rotundaaloe_start_thread(&state, COLLEAGUE, NULL) == 0);
    HOLDS(rotundaaloe_start_thread(&state, OWNER, NULL) == 0);
    HOLDS(rotundaaloe_new_segment(&state, EDITOR, ROTUNDAALOE_CODE, NULL) == 0);
    HOLDS(rotundaaloe_new_segment(&state, EDITOR, ROTUNDAALOE_SHEET, NULL) == 0);
    HOLDS(rotundaaloe_new_key(&state, EDITOR, NULL) == 0);
    lock(ROTUNDAALOE_WRITE, "D0&S1&S0&!R0&U1&!U0");
    lock(ROTUNDAALOE_READ | ROTUNDAALOE_WRITE, "S1&!D0|U0");
    lock(ROTUNDAALOE_READ | ROTUNDAALOE_DENY, "R0");
}

/* Lists into rows that have something else in every byte. Answers the refusal. */
static unsigned listed(uint16_t user, uint16_t segment, size_t lent)
{
    memset(rows, 0xA5, sizeof rows);
    memcpy(before, rows, sizeof rows);
    filled = 77;
    return rotundaaloe_list_locks(&state, user, segment, rows, lent, &filled);
}

/* From this row on nothing has changed. */
static bool rest_stays(size_t row)
{
    return memcmp(rows + row, before + row, (LENT - row) * sizeof rows[0]) == 0;
}

static bool is(size_t row, uint16_t number, uint16_t operations, uint16_t deny)
{
    return rows[row].lock == number && rows[row].operations == operations && rows[row].deny == deny;
}

/* The keys of a row as a text, with a dot for each blank one. */
static const char *keys(size_t row)
{
    static char text[100];
    char *end = text;
    for (int place = 0; place < ROTUNDAALOE_MOST_LITERALS; place++) {
        const struct rotundaaloe_key *key = &rows[row].keys[place];
        if (key->kind == 0 && key->number == 0 && key->barred == 0)
            end += sprintf(end, ".");
        else
            end += sprintf(end, "%s%c%d", key->barred == 1 ? "!" : "", key->kind, key->number);
    }
    return text;
}

static void for_the_owner(void)
{
    for (size_t lent = 4; lent <= LENT; lent++) {
        HOLDS(listed(OWNER, SHEET, lent) == ROTUNDAALOE_ACCEPTED && filled == 4);
        HOLDS(is(0, 0, 4, 0) && strcmp(keys(0), "!U0U1!R0S0S1D0") == 0);
        HOLDS(is(1, 1, 6, 0) && strcmp(keys(1), "S1!D0....") == 0);
        HOLDS(is(2, 1, 6, 0) && strcmp(keys(2), "U0.....") == 0);
        HOLDS(is(3, 2, 2, 1) && strcmp(keys(3), "R0.....") == 0);
        HOLDS(rest_stays(4));
    }
}

static void for_a_colleague(void)
{
    for (size_t lent = 3; lent <= LENT; lent++) {
        HOLDS(listed(COLLEAGUE, SHEET, lent) == ROTUNDAALOE_ACCEPTED && filled == 3);
        HOLDS(is(0, 0, 4, 0) && strcmp(keys(0), "......") == 0);
        HOLDS(is(1, 1, 6, 0) && strcmp(keys(1), "......") == 0);
        HOLDS(is(2, 2, 2, 1) && strcmp(keys(2), "......") == 0);
        HOLDS(rest_stays(3));
    }
}

static void refusals(void)
{
    for (size_t lent = 0; lent <= LENT; lent += LENT) {
        HOLDS(listed(STRANGER, NOWHERE, lent) == ROTUNDAALOE_UNKNOWN_USER && rest_stays(0));
        HOLDS(listed(STRANGER, SHEET, lent) == ROTUNDAALOE_UNKNOWN_USER && rest_stays(0));
        HOLDS(listed(OWNER, NOWHERE, lent) == ROTUNDAALOE_NO_SEGMENT && rest_stays(0));
        HOLDS(listed(COLLEAGUE, 65535, lent) == ROTUNDAALOE_NO_SEGMENT && rest_stays(0));
        HOLDS(filled == 77);
    }
    for (size_t lent = 0; lent < 4; lent++)
        HOLDS(listed(OWNER, SHEET, lent) == ROTUNDAALOE_TOO_FEW_ROWS && rest_stays(0));
    for (size_t lent = 0; lent < 3; lent++)
        HOLDS(listed(COLLEAGUE, SHEET, lent) == ROTUNDAALOE_TOO_FEW_ROWS && rest_stays(0));
    HOLDS(filled == 77);
}

/* The code segment has no locks. Rows that are NULL are none, whatever their number. */
static void no_rows(void)
{
    const size_t lent[3] = {0, 1, SIZE_MAX};
    HOLDS(listed(OWNER, CODE, 0) == ROTUNDAALOE_ACCEPTED && filled == 0 && rest_stays(0));
    HOLDS(listed(COLLEAGUE, CODE, LENT) == ROTUNDAALOE_ACCEPTED && filled == 0 && rest_stays(0));
    for (int place = 0; place < 3; place++) {
        filled = 77;
        HOLDS(rotundaaloe_list_locks(&state, OWNER, SHEET, NULL, lent[place], &filled)
              == ROTUNDAALOE_TOO_FEW_ROWS);
        HOLDS(rotundaaloe_list_locks(&state, OWNER, NOWHERE, NULL, lent[place], NULL)
              == ROTUNDAALOE_NO_SEGMENT);
        HOLDS(filled == 77);
        HOLDS(rotundaaloe_list_locks(&state, OWNER, CODE, NULL, lent[place], NULL)
              == ROTUNDAALOE_ACCEPTED);
        HOLDS(rotundaaloe_list_locks(&state, OWNER, CODE, NULL, lent[place], &filled)
              == ROTUNDAALOE_ACCEPTED && filled == 0);
    }
    HOLDS(rotundaaloe_list_locks(&state, OWNER, SHEET, rows, 4, NULL) == ROTUNDAALOE_ACCEPTED);
    HOLDS(is(3, 2, 2, 1));
}

int main(void)
{
    static struct rotundaaloe_state kept;
    make_office();
    kept = state;
    for_the_owner();
    for_a_colleague();
    refusals();
    no_rows();
    HOLDS(memcmp(&state, &kept, sizeof state) == 0);
    return 0;
}
