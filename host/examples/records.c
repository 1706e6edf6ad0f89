/*
 * Prints the records of a journal, in C: each one's place, letter, a, b, c and text.
 *
 *     cc -std=c99 -Ihost/include -o target/records host/examples/records.c \
 *         target/staticlib/libabi.a
 *     target/records lessons/route.kld
 */
#include "rotundaaloe.h"

#include <stdio.h>
#include <stdlib.h>

static unsigned print_records(const uint8_t *file, size_t length)
{
    struct rotundaaloe_reader reader;
    struct rotundaaloe_record record;
    bool found;
    unsigned refusal = rotundaaloe_reader_open(&reader, file, length);
    for (unsigned place = 0; refusal == ROTUNDAALOE_ACCEPTED; place++) {
        refusal = rotundaaloe_reader_next(&reader, &record, &found);
        if (refusal != ROTUNDAALOE_ACCEPTED || !found)
            break;
        printf("%u %c %d %d %d %.*s\n", place, record.letter, record.a, record.b, record.c,
               (int)record.text_length, (const char *)record.text);
    }
    return refusal;
}

int main(int count, char **arguments)
{
    /* One byte more than a journal may have, so that a longer file is refused and not cut. */
    static uint8_t bytes[ROTUNDAALOE_JOURNAL_BYTES + 1];
    FILE *file = count == 2 ? fopen(arguments[1], "rb") : NULL;
    unsigned refusal;
    size_t length;

    if (file == NULL) {
        fprintf(stderr, "name a journal that can be read\n");
        return EXIT_FAILURE;
    }
    length = fread(bytes, 1, sizeof bytes, file);
    if (ferror(file)) {
        perror(arguments[1]);
        return EXIT_FAILURE;
    }
    fclose(file);
    refusal = print_records(bytes, length);
    if (refusal != ROTUNDAALOE_ACCEPTED)
        fprintf(stderr, "%s: %s (%u)\n", arguments[1], rotundaaloe_refusal_text(refusal),
                refusal);
    return refusal == ROTUNDAALOE_ACCEPTED ? EXIT_SUCCESS : EXIT_FAILURE;
}
