/*
 * A host that keeps its state in a file, in C: each start goes on where the last one ended.
 *
 *     cc -std=c99 -Ihost/include host/examples/state.c target/staticlib/libabi.a -o target/state
 *     target/state target/office.kls      makes the file, and prints: thread 0
 *     target/state target/office.kls      reads it again, and prints: thread 1
 */
#define _XOPEN_SOURCE 700

#include "rotundaaloe.h"

#include <errno.h>
#include <stdio.h>
#include <stdlib.h>
#include <string.h>
#include <sys/stat.h>
#include <unistd.h>

static struct rotundaaloe_state state;

static void fail(const char *what, const char *why)
{
    fprintf(stderr, "%s: %s\n", what, why);
    exit(EXIT_FAILURE);
}

static void must(const char *what, unsigned refusal)
{
    if (refusal != ROTUNDAALOE_ACCEPTED)
        fail(what, rotundaaloe_refusal_text(refusal));
}

/* A state file, or where there is none yet the empty state with its first user. */
static void read_state(const char *name)
{
    /* One byte more than a state file has, so that a longer one is refused and not cut. */
    static uint8_t bytes[ROTUNDAALOE_STATE_FILE_BYTES + 1];
    size_t length;
    FILE *file = fopen(name, "rb");
    if (file == NULL && errno == ENOENT) {
        rotundaaloe_empty(&state);
        must("new user", rotundaaloe_new_user(&state, NULL));
        return;
    }
    if (file == NULL)
        fail(name, strerror(errno));
    length = fread(bytes, 1, sizeof bytes, file);
    if (ferror(file))
        fail(name, strerror(errno));
    fclose(file);
    must(name, rotundaaloe_state_from_bytes(&state, bytes, length));
}

static bool write_bytes(int descriptor, const uint8_t *bytes, size_t length)
{
    FILE *file = fdopen(descriptor, "wb");
    bool written = file != NULL && fwrite(bytes, 1, length, file) == length && fflush(file) == 0
                   && fsync(descriptor) == 0;
    return file != NULL && fclose(file) == 0 && written;
}

/* Where a link of that name leads to, so that the link stays. */
static const char *destination(const char *name)
{
    struct stat link;
    const char *file = realpath(name, NULL);
    if (file != NULL)
        return file;
    if (errno != ENOENT || lstat(name, &link) == 0)
        fail(name, "it leads nowhere");
    return name;
}

/*
 * Whole or not at all: whenever the host stops, the old file stands there, or the new one. It keeps
 * the old one's permissions; a first one is for its owner alone.
 */
static void write_state(const char *name)
{
    static struct rotundaaloe_state_file file;
    const char *place = destination(name);
    struct stat old;
    char beside[4096];
    int descriptor;
    if (snprintf(beside, sizeof beside, "%s.XXXXXX", place) >= (int)sizeof beside)
        fail(name, "too long a name");
    descriptor = mkstemp(beside);
    if (descriptor < 0)
        fail(beside, strerror(errno));
    rotundaaloe_state_to_file(&state, &file);
    if ((stat(place, &old) == 0 && fchmod(descriptor, old.st_mode & 0777) != 0)
        || !write_bytes(descriptor, file.bytes, sizeof file.bytes) || rename(beside, place) != 0) {
        int error = errno;
        unlink(beside);
        fail(name, strerror(error));
    }
}

int main(int count, char **arguments)
{
    uint16_t thread;
    if (count != 2)
        fail(arguments[0], "name a state file");
    read_state(arguments[1]);
    must("start thread", rotundaaloe_start_thread(&state, 0, &thread));
    write_state(arguments[1]);
    printf("thread %d\n", thread);
    return 0;
}
