/*
 * A host in miniature, in C: the totals may be saved only by way of the rate loader.
 *
 *     cc -std=c99 -Ihost/include host/examples/route.c target/staticlib/libabi.a -o target/route
 *     target/route
 */
#include "rotundaaloe.h"

#include <stdio.h>
#include <stdlib.h>

/* The protection state. A host keeps it wherever it likes, for as long as it runs. */
static struct rotundaaloe_state state;

/* For what this program counts on. */
static void must(unsigned refusal)
{
    if (refusal != ROTUNDAALOE_ACCEPTED) {
        fprintf(stderr, "%s (%u)\n", rotundaaloe_refusal_text(refusal), refusal);
        exit(EXIT_FAILURE);
    }
}

static void lock(uint16_t thread, uint16_t segment, uint16_t operations, const char *text)
{
    must(rotundaaloe_add_lock(&state, thread, segment, operations, text, NULL));
}

static void call(uint16_t thread, uint16_t segment)
{
    must(rotundaaloe_call_segment(&state, thread, segment, NULL, NULL));
}

/* What a save's answer means to the person at the sheet. */
static void save(const char *what, uint16_t thread, uint16_t sheet)
{
    uint16_t opened, denying;
    unsigned refusal =
        rotundaaloe_access(&state, thread, sheet, ROTUNDAALOE_WRITE, &opened, &denying);
    if (refusal == ROTUNDAALOE_ACCEPTED)
        printf("%s: saved, lock %d opened\n", what, opened);
    else if (refusal == ROTUNDAALOE_DENIED)
        printf("%s: not saved, lock %d forbids it\n", what, denying);
    else
        printf("%s: not saved, %s (%u)\n", what, rotundaaloe_refusal_text(refusal), refusal);
}

int main(void)
{
    uint16_t owner, loader, recalculation, totals, january, february;
    char route[ROTUNDAALOE_MOST_TEXT + 1];

    rotundaaloe_empty(&state);
    must(rotundaaloe_new_user(&state, &owner));
    must(rotundaaloe_start_thread(&state, owner, &january));
    must(rotundaaloe_new_segment(&state, january, ROTUNDAALOE_CODE, &loader));
    must(rotundaaloe_new_segment(&state, january, ROTUNDAALOE_CODE, &recalculation));
    must(rotundaaloe_new_segment(&state, january, ROTUNDAALOE_SHEET, &totals));
    lock(january, loader, ROTUNDAALOE_EXECUTE, "U0");
    lock(january, recalculation, ROTUNDAALOE_EXECUTE, "U0");
    snprintf(route, sizeof route, "S%d&S%d", loader, recalculation);
    lock(january, totals, ROTUNDAALOE_WRITE, route);

    call(january, loader);
    call(january, recalculation);
    save("by way of the rate loader", january, totals);

    must(rotundaaloe_start_thread(&state, owner, &february));
    call(february, recalculation);
    save("the recalculation by itself", february, totals);

    must(rotundaaloe_return_call(&state, january, NULL));
    save("after the return", january, totals);
    return 0;
}
