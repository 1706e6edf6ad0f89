/*
 * Replays the journal on standard input by the twelve functions, and prints the office program's
 * lines. A second state is asked by records, and must say and become the same.
 */
#include "rotundaaloe.h"

#include <stdio.h>
#include <stdlib.h>

static struct rotundaaloe_state state, other;

static unsigned ask(const struct rotundaaloe_record *record, uint16_t *answer,
                                    uint16_t *denying)
{
    const uint16_t a = record->a, b = record->b, c = record->c;
    switch (record->letter) {
    case 'U': return rotundaaloe_new_user(&state, answer);
    case 'S': return rotundaaloe_start_thread(&state, a, answer);
    case 'E': return rotundaaloe_end_thread(&state, a, answer);
    case 'N': return rotundaaloe_new_segment(&state, a, b, answer);
    case 'K': return rotundaaloe_new_key(&state, a, answer);
    case 'G': return rotundaaloe_give_key(&state, a, b, c, answer);
    case 'T': return rotundaaloe_take_key(&state, a, b, c, answer);
    case 'L':
        return rotundaaloe_add_lock(&state, a, b, c, (const char *)record->text, answer);
    case 'D': return rotundaaloe_drop_lock(&state, a, b, answer);
    case 'C': return rotundaaloe_call_segment(&state, a, b, answer, denying);
    case 'R': return rotundaaloe_return_call(&state, a, answer);
    case 'A': return rotundaaloe_access(&state, a, b, c, answer, denying);
    default: abort();
    }
}

static void print_line(unsigned place, const struct rotundaaloe_record *record)
{
    uint16_t answer = 7, denying = 0, other_answer = 7, other_denying = 0;
    unsigned refusal = ask(record, &answer, &denying);
    unsigned by_record =
        rotundaaloe_call(&other, record, &other_answer, &other_denying);
    if (refusal == ROTUNDAALOE_ACCEPTED)
        printf("%u %c ok %d\n", place, record->letter, answer);
    else
        printf("%u %c no %u %d\n", place, record->letter, refusal, denying);
    if (refusal != by_record || answer != other_answer || denying != other_denying
        || memcmp(&state, &other, sizeof state) != 0
        || (refusal != ROTUNDAALOE_ACCEPTED && answer != 7)) {
        printf("the record says %u %d %d\n", by_record, other_answer, other_denying);
        exit(EXIT_FAILURE);
    }
}

int main(void)
{
    static uint8_t file[ROTUNDAALOE_JOURNAL_BYTES + 1];
    const size_t length = fread(file, 1, sizeof file, stdin);
    struct rotundaaloe_reader reader;
    struct rotundaaloe_record record;
    bool found = true;

    rotundaaloe_empty(&state);
    rotundaaloe_empty(&other);
    if (rotundaaloe_reader_open(&reader, file, length) != ROTUNDAALOE_ACCEPTED)
        return EXIT_FAILURE;
    for (unsigned place = 0;; place++) {
        if (rotundaaloe_reader_next(&reader, &record, &found) != ROTUNDAALOE_ACCEPTED)
            return EXIT_FAILURE;
        if (!found)
            return EXIT_SUCCESS;
        print_line(place, &record);
    }
}
