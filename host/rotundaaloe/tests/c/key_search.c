/*
 * The key search in C: worked examples by hand from document 02, P3. Prints each line that doesn't
 * hold.
 */
#include "rotundaaloe.h"

#include <stdio.h>

#define HOLDS(claim) \
    do { \
        if (!(claim)) \
            printf("%d: %s\n", __LINE__, #claim); \
    } while (0)

/* The third thread isn't started. */
enum { BUSY, IDLE, NOBODY };
enum { LOADER, RECALCULATION, AUDIT, SHEET };

static struct rotundaaloe_state state;

static void call(uint16_t segment)
{
    HOLDS(rotundaaloe_call_segment(&state, BUSY, segment, NULL, NULL) == ROTUNDAALOE_ACCEPTED);
}

static void give(uint16_t segment, uint16_t key)
{
    HOLDS(rotundaaloe_give_key(&state, IDLE, segment, key, NULL) == ROTUNDAALOE_ACCEPTED);
}

/* Three parts and a sheet. Two parts hand over D0, the second of them D1 too; the sheet has D2. */
static void make_office(void)
{
    rotundaaloe_empty(&state);
    HOLDS(rotundaaloe_new_user(&state, NULL) == 0);
    HOLDS(rotundaaloe_start_thread(&state, 0, NULL) == 0);
    HOLDS(rotundaaloe_start_thread(&state, 0, NULL) == 0);
    for (uint16_t segment = LOADER; segment <= AUDIT; segment++) {
        HOLDS(rotundaaloe_new_segment(&state, IDLE, ROTUNDAALOE_CODE, NULL) == 0);
        HOLDS(rotundaaloe_add_lock(&state, IDLE, segment, ROTUNDAALOE_EXECUTE, "U0", NULL) == 0);
    }
    HOLDS(rotundaaloe_new_segment(&state, IDLE, ROTUNDAALOE_SHEET, NULL) == 0);
    for (int key = 0; key < 3; key++)
        HOLDS(rotundaaloe_new_key(&state, IDLE, NULL) == 0);
    give(LOADER, 0);
    give(RECALCULATION, 0);
    give(RECALCULATION, 1);
    give(SHEET, 2);
}

/* The busy thread's open calls are then, the newest first: S0 D0, S2, S1 D0 D1, S0 D0. */
static void make_calls(void)
{
    call(LOADER);
    call(RECALCULATION);
    call(AUDIT);
    call(LOADER);
}

/* The place, or -1 where no open call hands the key over. */
static int place_of(uint16_t thread, uint32_t key)
{
    bool found = true, again = false;
    uint16_t place = 777;
    HOLDS(rotundaaloe_find_key(&state, thread, key, &found, &place) == ROTUNDAALOE_ACCEPTED);
    HOLDS(rotundaaloe_find_key(&state, thread, key, &again, NULL) == ROTUNDAALOE_ACCEPTED);
    HOLDS(again == found && found == (place != 777));
    return found ? place : -1;
}

static int s(uint16_t segment)
{
    return place_of(BUSY, rotundaaloe_key_of_segment(segment));
}

static int d(uint16_t key)
{
    return place_of(BUSY, rotundaaloe_key_defined(key));
}

/* A key that two calls hand over is the newer one's, and all open calls count. */
static void the_newest(void)
{
    HOLDS(s(LOADER) == 0 && s(AUDIT) == 1 && s(RECALCULATION) == 2);
    HOLDS(d(0) == 0 && d(1) == 2);
    HOLDS(rotundaaloe_return_call(&state, BUSY, NULL) == ROTUNDAALOE_ACCEPTED);
    HOLDS(s(AUDIT) == 0 && s(RECALCULATION) == 1 && s(LOADER) == 2);
    HOLDS(d(0) == 1 && d(1) == 1);
    HOLDS(rotundaaloe_return_call(&state, BUSY, NULL) == ROTUNDAALOE_ACCEPTED);
    HOLDS(rotundaaloe_return_call(&state, BUSY, NULL) == ROTUNDAALOE_ACCEPTED);
    HOLDS(s(AUDIT) == -1 && s(RECALCULATION) == -1 && s(LOADER) == 0);
    HOLDS(d(0) == 0 && d(1) == -1);
    call(RECALCULATION);
    HOLDS(s(RECALCULATION) == 0 && s(LOADER) == 1 && d(0) == 0 && d(1) == 0);
    call(AUDIT);
    call(LOADER);
}

/* In the state of four open calls. Held is not handed over, and a sheet isn't called. */
static void none(void)
{
    const uint32_t no_keys[3] = {0x40000, 0x40000 + LOADER, UINT32_MAX};
    HOLDS(s(SHEET) == -1 && d(2) == -1);
    HOLDS(place_of(BUSY, rotundaaloe_key_of_user(0)) == -1);
    HOLDS(place_of(BUSY, rotundaaloe_key_of_thread(BUSY)) == -1);
    HOLDS(place_of(BUSY, rotundaaloe_key_of_thread(IDLE)) == -1);
    HOLDS(place_of(BUSY, rotundaaloe_key_of_user(1)) == -1);
    HOLDS(s(4) == -1 && s(65535) == -1 && d(3) == -1 && d(65535) == -1);
    for (int place = 0; place < 3; place++)
        HOLDS(place_of(BUSY, no_keys[place]) == -1);
    HOLDS(place_of(IDLE, rotundaaloe_key_of_segment(LOADER)) == -1);
    HOLDS(place_of(IDLE, rotundaaloe_key_defined(0)) == -1);
    HOLDS(place_of(IDLE, rotundaaloe_key_of_thread(IDLE)) == -1);
}

/* The refusal, which must leave both pointers alone. */
static unsigned refused(uint16_t thread, uint32_t key)
{
    bool found = true;
    uint16_t place = 777;
    const unsigned refusal = rotundaaloe_find_key(&state, thread, key, &found, &place);
    HOLDS(found && place == 777);
    found = false;
    HOLDS(rotundaaloe_find_key(&state, thread, key, &found, &place) == refusal);
    HOLDS(!found && place == 777);
    return refusal;
}

static void no_thread(void)
{
    HOLDS(refused(NOBODY, rotundaaloe_key_of_segment(LOADER)) == ROTUNDAALOE_NO_THREAD);
    HOLDS(refused(NOBODY, rotundaaloe_key_of_user(0)) == ROTUNDAALOE_NO_THREAD);
    HOLDS(refused(65535, UINT32_MAX) == ROTUNDAALOE_NO_THREAD);
    HOLDS(refused(64, rotundaaloe_key_of_segment(LOADER)) == ROTUNDAALOE_NO_THREAD);
    HOLDS(rotundaaloe_find_key(&state, NOBODY, 0, NULL, NULL) == ROTUNDAALOE_NO_THREAD);
}

/* Either pointer, or both, may be NULL. */
static void unwanted(void)
{
    const uint32_t audit = rotundaaloe_key_of_segment(AUDIT);
    const uint32_t sheet = rotundaaloe_key_of_segment(SHEET);
    bool found = false;
    uint16_t place = 777;
    HOLDS(rotundaaloe_find_key(&state, BUSY, audit, NULL, NULL) == ROTUNDAALOE_ACCEPTED);
    HOLDS(rotundaaloe_find_key(&state, BUSY, audit, &found, NULL) == ROTUNDAALOE_ACCEPTED);
    HOLDS(found);
    HOLDS(rotundaaloe_find_key(&state, BUSY, audit, NULL, &place) == ROTUNDAALOE_ACCEPTED);
    HOLDS(place == 1);
    HOLDS(rotundaaloe_find_key(&state, BUSY, sheet, NULL, NULL) == ROTUNDAALOE_ACCEPTED);
    HOLDS(rotundaaloe_find_key(&state, BUSY, sheet, NULL, &place) == ROTUNDAALOE_ACCEPTED);
    HOLDS(place == 1);
    HOLDS(rotundaaloe_find_key(&state, BUSY, sheet, &found, NULL) == ROTUNDAALOE_ACCEPTED);
    HOLDS(!found);
}

/* As many open calls as there can be, and the oldest is found. */
static void the_oldest(void)
{
    for (int open = 4; open < ROTUNDAALOE_MOST_OPEN_CALLS; open++)
        call(AUDIT);
    HOLDS(s(AUDIT) == 0 && s(RECALCULATION) == 14 && d(1) == 14);
    HOLDS(s(LOADER) == 12 && d(0) == 12);
    for (int open = ROTUNDAALOE_MOST_OPEN_CALLS; open > 1; open--)
        HOLDS(rotundaaloe_return_call(&state, BUSY, NULL) == ROTUNDAALOE_ACCEPTED);
    HOLDS(s(LOADER) == 0 && s(AUDIT) == -1);
    for (int open = 1; open < ROTUNDAALOE_MOST_OPEN_CALLS; open++)
        call(AUDIT);
    HOLDS(s(LOADER) == 15 && d(0) == 15);
}

static void after_the_end(void)
{
    HOLDS(rotundaaloe_end_thread(&state, BUSY, NULL) == ROTUNDAALOE_ACCEPTED);
    HOLDS(refused(BUSY, rotundaaloe_key_of_segment(LOADER)) == ROTUNDAALOE_NO_THREAD);
    HOLDS(rotundaaloe_start_thread(&state, 0, NULL) == ROTUNDAALOE_ACCEPTED);
    HOLDS(refused(BUSY, rotundaaloe_key_of_segment(LOADER)) == ROTUNDAALOE_NO_THREAD);
    HOLDS(place_of(NOBODY, rotundaaloe_key_of_segment(LOADER)) == -1);
}

int main(void)
{
    static struct rotundaaloe_state kept;
    make_office();
    HOLDS(s(LOADER) == -1 && d(0) == -1);
    make_calls();
    the_newest();
    kept = state;
    none();
    no_thread();
    unwanted();
    HOLDS(memcmp(&state, &kept, sizeof state) == 0);
    the_oldest();
    after_the_end();
    return 0;
}
