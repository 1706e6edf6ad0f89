/*
 * A host that keeps a journal of what it asks, in C: calls are records, each asked and then
 * appended. The office program replays the journal.
 *
 *     cc -std=c99 -Ihost/include -o target/journal host/examples/journal.c \
 *         target/staticlib/libabi.a
 *     target/journal target/route.kld
 */
#include "rotundaaloe.h"

#include <stdio.h>
#include <stdlib.h>

static struct rotundaaloe_state state;
static struct rotundaaloe_journal journal;

/*
 * Asks first: a journal that is full must not keep a host from asking. Once an accepted call is
 * left out nothing more is appended, since a journal with a hole would be replayed otherwise.
 */
static unsigned ask(struct rotundaaloe_record record, uint16_t *answer)
{
    static bool whole = true;
    unsigned refusal = rotundaaloe_call(&state, &record, answer, NULL);
    if (whole && rotundaaloe_journal_append(&journal, &record) != ROTUNDAALOE_ACCEPTED
        && refusal == ROTUNDAALOE_ACCEPTED) {
        whole = false;
        fprintf(stderr, "from here on calls are missing in the journal\n");
    }
    return refusal;
}

/* The answer to a call that this program counts on. */
static uint16_t made(struct rotundaaloe_record record)
{
    uint16_t answer = 0;
    unsigned refusal = ask(record, &answer);
    if (refusal != ROTUNDAALOE_ACCEPTED) {
        fprintf(stderr, "%s (%u)\n", rotundaaloe_refusal_text(refusal), refusal);
        exit(EXIT_FAILURE);
    }
    return answer;
}

static void lock(uint16_t thread, uint16_t segment, uint16_t operations, const char *text)
{
    made(rotundaaloe_record_add_lock(thread, segment, operations, text));
}

static void save(uint16_t thread, uint16_t sheet)
{
    puts(rotundaaloe_refusal_text(
        ask(rotundaaloe_record_access(thread, sheet, ROTUNDAALOE_WRITE), NULL)));
}

static void write_journal(const char *name)
{
    FILE *file = fopen(name, "wb");
    if (file == NULL || fwrite(journal.bytes, 1, journal.size, file) != journal.size
        || fclose(file) != 0) {
        perror(name);
        exit(EXIT_FAILURE);
    }
}

int main(int count, char **arguments)
{
    uint16_t owner, loader, totals, january, february;

    if (count != 2) {
        fprintf(stderr, "name a file for the journal\n");
        return EXIT_FAILURE;
    }
    rotundaaloe_empty(&state);
    rotundaaloe_journal_empty(&journal);
    owner = made(rotundaaloe_record_new_user());
    january = made(rotundaaloe_record_start_thread(owner));
    loader = made(rotundaaloe_record_new_segment(january, ROTUNDAALOE_CODE));
    totals = made(rotundaaloe_record_new_segment(january, ROTUNDAALOE_SHEET));
    lock(january, loader, ROTUNDAALOE_EXECUTE, "U0");
    lock(january, totals, ROTUNDAALOE_WRITE, "S0");

    february = made(rotundaaloe_record_start_thread(owner));
    made(rotundaaloe_record_call_segment(january, loader));
    save(january, totals);
    save(february, totals);
    write_journal(arguments[1]);
    return 0;
}
