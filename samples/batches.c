/* The accepted batches of a journal on standard input, and how it ends. The status is the outcome, a refusal's number, or one of these. */
#include "pierloft.h"
#include <inttypes.h>
#include <stdio.h>
#include <stdlib.h>

enum { CANNOT_READ = 66, NO_MEMORY = 70, CANNOT_WRITE = 74 };

static int fail(int status, const char *message)
{
    fprintf(stderr, "batches: %s\n", message);
    return status;
}

/* A file's bytes, in memory that grows with it, or NULL. Of one that is too long for the library, as many as it takes to be refused. */
static uint8_t *read_all(FILE *file, size_t *length)
{
    const size_t most = (size_t)UINT32_MAX + 1;
    size_t room = 1 << 16; /* doubled, it comes to `most` */
    uint8_t *image = malloc(room);
    *length = 0;
    while (image != NULL) {
        *length += fread(image + *length, 1, room - *length, file);
        if (*length < room || room == most)
            break;
        room *= 2;
        uint8_t *grown = realloc(image, room);
        if (grown == NULL)
            free(image);
        image = grown;
    }
    return image;
}

/* The batch's entries; 0, or the fault of one that cannot be read any more, since something changed the image after it was accepted. */
static uint32_t show(const uint8_t *image, size_t length, pierloft_stepped batch, pierloft_dialect dialect)
{
    printf("batch %" PRIu64 ", %" PRIu64 " entries\n", batch.seqno, batch.count);
    for (size_t at = batch.body; at < batch.end;) {
        pierloft_entry entry = pierloft_decode(image, length, at, dialect);
        if (entry.number != 0)
            return entry.number;
        if (entry.tag == PIERLOFT_TAG_CLEAR)
            printf("  clear of keyspace %" PRIu64 "\n", entry.keyspace);
        else /* its key lies at image + entry.key_at, its value at image + entry.value_at */
            printf("  item in keyspace %" PRIu64 ", type %d, key of %zu bytes, value of %zu\n", entry.keyspace, entry.value_type,
                   entry.key_len, entry.value_len);
        at = entry.next;
    }
    return 0;
}

static int list(const uint8_t *image, size_t length)
{
    pierloft_dialect dialect = pierloft_shipped();
    pierloft_reader reader = {0, 0, 0};
    while (!reader.ended) {
        pierloft_stepped step = pierloft_step(image, length, reader, dialect);
        uint32_t number = step.accepted ? show(image, length, step, dialect) : step.number;
        if (number != 0) {
            fprintf(stderr, "batches: refused by %" PRIu32 "\n", number);
            return (int)number;
        }
        reader = step.reader;
    }
    printf("outcome %" PRIu32 ", %zu of %zu bytes kept\n", reader.outcome, pierloft_kept(length, reader).bytes, length);
    return (int)reader.outcome;
}

int main(void)
{
    size_t length;
    uint8_t *image = read_all(stdin, &length);
    if (image == NULL)
        return fail(NO_MEMORY, "not enough memory for the journal");
    int status = ferror(stdin) ? fail(CANNOT_READ, "standard input cannot be read") : list(image, length);
    free(image);
    return fflush(stdout) == 0 && !ferror(stdout) ? status : fail(CANNOT_WRITE, "standard output cannot be written");
}
