/*
 * Replays the journal on standard input and writes the state's file to standard output; or, with
 * an argument, damages that file in every way and prints each one that is not refused as it must
 * be, or that changes a state.
 */
#include "rotundaaloe.h"

#include <stdio.h>
#include <stdlib.h>

enum { SIZE = ROTUNDAALOE_STATE_FILE_BYTES, CELLS_END = SIZE - 4 };

static struct rotundaaloe_state state;
static uint8_t file[SIZE + 1];

static void replay(void)
{
    static uint8_t journal[ROTUNDAALOE_JOURNAL_BYTES + 1];
    const size_t length = fread(journal, 1, sizeof journal, stdin);
    struct rotundaaloe_reader reader;
    struct rotundaaloe_record record;
    bool found = false;
    if (rotundaaloe_reader_open(&reader, journal, length) != ROTUNDAALOE_ACCEPTED)
        exit(EXIT_FAILURE);
    rotundaaloe_empty(&state);
    while (rotundaaloe_reader_next(&reader, &record, &found) == ROTUNDAALOE_ACCEPTED && found) {
        const unsigned ignored = rotundaaloe_call(&state, &record, NULL, NULL);
        (void)ignored;
    }
}

static void must_be(int refusal, const uint8_t *bytes, size_t length, const char *what, size_t at)
{
    static struct rotundaaloe_state read, before;
    memset(&before, 0xA5, sizeof before);
    read = before;
    const int given = (int)rotundaaloe_state_from_bytes(&read, bytes, length);
    if (given != refusal || memcmp(&read, &before, sizeof read) != 0)
        printf("%s at %zu: %d, not %d\n", what, at, given, refusal);
}

/* Byte by byte: every other value in the head and the checksum, one bit of each cell. */
static void change_each_byte(void)
{
    for (size_t place = 0; place < SIZE; place++) {
        const bool is_cell = place >= ROTUNDAALOE_STATE_HEAD && place < CELLS_END;
        const int refusal = place < 4 ? 16 : place < 6 ? 17 : 18;
        const uint8_t right = file[place];
        for (unsigned change = is_cell ? 1u << place % 8 : 1; change < 256;
             change += is_cell ? 256 : 1) {
            file[place] = (uint8_t)(right ^ change);
            must_be(refusal, file, SIZE, "changed", place);
        }
        file[place] = right;
    }
}

static void cut_and_lengthen(void)
{
    for (size_t length = 0; length < SIZE; length++)
        must_be(length < 4 ? 16 : 18, file, length, "cut", length);
    file[4] = 2;
    for (size_t length = 0; length < SIZE; length++)
        must_be(length < 4 ? 16 : length < 6 ? 18 : 17, file, length, "other layout cut", length);
    file[4] = ROTUNDAALOE_STATE_LAYOUT;
    must_be(18, file, SIZE + 1, "longer", SIZE);
    must_be(16, NULL, SIZE, "NULL", 0);
}

/* Another number in the head, with the checksum that goes with it. */
static void forge(size_t place, uint8_t byte, int refusal)
{
    const uint8_t right = file[place];
    file[place] = byte;
    rotundaaloe_private_put(file + CELLS_END, rotundaaloe_private_checksum(file, CELLS_END), 4);
    must_be(refusal, file, SIZE, "forged", place);
    file[place] = right;
    rotundaaloe_private_put(file + CELLS_END, rotundaaloe_private_checksum(file, CELLS_END), 4);
}

static void read_again(void)
{
    static struct rotundaaloe_state again;
    memset(&again, 0xA5, sizeof again);
    if (rotundaaloe_state_from_bytes(&again, file, SIZE) != ROTUNDAALOE_ACCEPTED
        || memcmp(&again, &state, sizeof state) != 0)
        printf("the right file is refused, or another state\n");
}

int main(int count, char **arguments)
{
    (void)arguments;
    static struct rotundaaloe_state_file right;
    replay();
    rotundaaloe_state_to_file(&state, &right);
    memcpy(file, right.bytes, SIZE);
    if (count == 1)
        return fwrite(file, 1, SIZE, stdout) == SIZE ? EXIT_SUCCESS : EXIT_FAILURE;
    change_each_byte();
    cut_and_lengthen();
    forge(4, 2, 17);
    forge(5, 1, 17);
    forge(6, 0x21, 18);
    forge(9, 1, 18);
    read_again();
    return EXIT_SUCCESS;
}
