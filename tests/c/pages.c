/* The library on pages of their own. A refused call stores nothing: what it is lent to write to is read-only here, so that a store, of the
 * same bytes too, ends the process that makes it. And no call goes behind what it is lent: the page behind is shut. */
#define _DEFAULT_SOURCE
#include "pierloft.h"
#include "check.h"
#include <signal.h>
#include <string.h>
#include <sys/mman.h>
#include <sys/wait.h>
#include <unistd.h>

static uint8_t *page;
static size_t size;
static const uint8_t key[65536] = {'a'};
static const pierloft_writer empty = {0, 0, 0, 0}, opened = {13, 0, 1, 1}, beyond = {9999999, 0, 0, 0};

/* What a call answers in a process of its own; -1 where it does not come to its end. */
#define APART(call) apart(fork() == 0 ? (signal(SIGSEGV, SIG_DFL), _exit((int)(call)), 0) : 0)
static int apart(int unused)
{
    int status;
    (void)unused;
    return wait(&status) > 0 && WIFEXITED(status) ? WEXITSTATUS(status) : -1;
}

static void pages(void)
{
    size = (size_t)sysconf(_SC_PAGESIZE);
    void *two = mmap(NULL, 2 * size, PROT_READ | PROT_WRITE, MAP_PRIVATE | MAP_ANONYMOUS, -1, 0);
    if (two == MAP_FAILED || mprotect((uint8_t *)two + size, size, PROT_NONE) != 0)
        _exit(2);
    page = (uint8_t *)two;
}

/* The pages do what this test takes them to do: a store is seen, and so is a look behind. */
static void traps(void)
{
    IS(mprotect(page, size, PROT_READ) == 0);
    IS(APART(*(volatile uint8_t *)page = 1) == -1);
    IS(APART(((volatile uint8_t *)page)[size]) == -1);
    IS(APART(((volatile uint8_t *)page)[size - 1]) == 0);
    IS(APART(pierloft_encode_clear(page, size, pierloft_test(), 2).number) == -1);
}

static void refused_hashes(void)
{
    IS(mprotect(page, size, PROT_READ | PROT_WRITE) == 0);
    pierloft_hasher *lent = (pierloft_hasher *)(void *)page;
    *lent = pierloft_hasher_new();
    lent->total = UINT32_MAX;
    IS(mprotect(page, size, PROT_READ) == 0);
    IS(APART(pierloft_absorb_at(lent->acc, lent->hold, &lent->total, key, 1)) == PIERLOFT_REFUSED_TOO_LONG);
    IS(APART(pierloft_absorb_into(lent, key, 1)) == PIERLOFT_REFUSED_TOO_LONG);
}

static void refused_encoders(void)
{
    const pierloft_dialect d = pierloft_test();
    pierloft_dialect bad = d;
    bad.length = 0;
    IS(APART(pierloft_encode_start(page, 12, d, 1, 7).number) == PIERLOFT_REFUSED_NO_ROOM);
    IS(APART(pierloft_encode_start(page, size, bad, 1, 7).number) == PIERLOFT_REFUSED_DIALECT);
    IS(APART(pierloft_encode_item(page, 21, d, 0, 2, key, 1, NULL, 0).number) == PIERLOFT_REFUSED_NO_ROOM);
    IS(APART(pierloft_encode_item(page, size, d, 0, 2, key, 65536, NULL, 0).number) == PIERLOFT_REFUSED_KEY);
    IS(APART(pierloft_encode_item(page, size, d, 4, 2, key, 1, NULL, 0).number) == PIERLOFT_FAULT_VALUE_TYPE);
    IS(APART(pierloft_encode_item(page, size, bad, 0, 2, key, 1, NULL, 0).number) == PIERLOFT_REFUSED_DIALECT);
    IS(APART(pierloft_encode_end(page, 12, d, 7).number) == PIERLOFT_REFUSED_NO_ROOM);
    IS(APART(pierloft_encode_end(page, size, bad, 7).number) == PIERLOFT_REFUSED_DIALECT);
    IS(APART(pierloft_encode_clear(page, 8, d, 2).number) == PIERLOFT_REFUSED_NO_ROOM);
    IS(APART(pierloft_encode_clear(page, size, bad, 2).number) == PIERLOFT_REFUSED_DIALECT);
}

static void refused_batches(void)
{
    const pierloft_dialect d = pierloft_test();
    const pierloft_writer full = {37, 0, 1, 0};
    IS(APART(pierloft_open(page, size, d, empty, UINT64_C(1) << 32, 7).number) == PIERLOFT_REFUSED_COUNT);
    IS(APART(pierloft_open(page, 25, d, empty, 1, 7).number) == PIERLOFT_REFUSED_NO_ROOM);
    IS(APART(pierloft_open(page, size, d, opened, 1, 7).number) == PIERLOFT_REFUSED_ORDER);
    IS(APART(pierloft_open(page, size, d, empty, 0, 7).number) == 0);
    IS(APART(pierloft_put_item(page, size, d, opened, 0, 2, NULL, 0, NULL, 0).number) == PIERLOFT_REFUSED_KEY);
    IS(APART(pierloft_put_item(page, 47, d, opened, 0, 2, key, 1, NULL, 0).number) == PIERLOFT_REFUSED_NO_ROOM);
    IS(APART(pierloft_put_item(page, size, d, full, 0, 2, key, 1, NULL, 0).number) == PIERLOFT_REFUSED_COUNTED);
    IS(APART(pierloft_put_item(page, size, d, opened, 9, 2, key, 1, NULL, 0).number) == PIERLOFT_FAULT_VALUE_TYPE);
    IS(APART(pierloft_put_clear(page, 34, d, opened, 2).number) == PIERLOFT_REFUSED_NO_ROOM);
    IS(APART(pierloft_put_clear(page, size, d, empty, 2).number) == PIERLOFT_REFUSED_ORDER);
    IS(APART(pierloft_close(page, 49, d, full).number) == PIERLOFT_REFUSED_NO_ROOM);
    IS(APART(pierloft_close(page, size, d, opened).number) == PIERLOFT_REFUSED_COUNTED);
    IS(APART(pierloft_close(page, size, d, beyond).number) == PIERLOFT_REFUSED_STATE);
    IS(APART(pierloft_write_raw(page, 47, d, empty, 7, 0, 2, key, 1, NULL, 0).number) == PIERLOFT_REFUSED_NO_ROOM);
    IS(APART(pierloft_write_raw(page, size, d, empty, 7, 0, 2, key, 65536, NULL, 0).number) == PIERLOFT_REFUSED_KEY);
    IS(APART(pierloft_write_raw(page, size, d, empty, 7, 4, 2, key, 1, NULL, 0).number) == PIERLOFT_FAULT_VALUE_TYPE);
    IS(APART(pierloft_write_clear(page, 34, d, empty, 7, 2).number) == PIERLOFT_REFUSED_NO_ROOM);
    IS(APART(pierloft_write_clear(page, size, d, opened, 7, 2).number) == PIERLOFT_REFUSED_ORDER);
}

/* An image of every length up to 600 that ends where its page does: a journal of as many batches as go in, and what is left of the next. */
static uint32_t to_the_edge(void)
{
    const pierloft_dialect d = pierloft_test();
    static uint8_t journal[700];
    pierloft_writer writer = empty;
    for (size_t n = 0; writer.position < 600; n++)
        writer = pierloft_write_raw(journal, sizeof journal, d, writer, n, 0, 2, key, 1 + n, key, 3 * n).writer;
    for (size_t length = 0; length <= 600; length++) {
        uint8_t *image = page + size - length;
        memcpy(image, journal, length);
        pierloft_reader reader = {0, 0, 0};
        while (!reader.ended)
            reader = pierloft_step(image, length, reader, d).reader;
        for (size_t at = reader.position; at <= length; at++)
            pierloft_decode(image, length, at, d);
        pierloft_hasher state = pierloft_hasher_new();
        pierloft_absorb_into(&state, image, length);
        if (pierloft_finish(state).hash != pierloft_xxh3_64(image, length).hash)
            return 1;
    }
    return 0;
}

/* A batch of every length up to the page's last byte: written in full, or not at all, and never past it. */
static uint32_t write_to_the_edge(void)
{
    const pierloft_dialect d = pierloft_test();
    for (size_t room = 0; room <= 600; room++)
        for (size_t value = 0; value <= 300; value += 7) {
            const uint32_t number = room < 48 + value ? PIERLOFT_REFUSED_NO_ROOM : 0;
            if (pierloft_write_raw(page + size - room, room, d, empty, 7, 0, 2, key, 1, key, value).number != number)
                return 1;
        }
    return 0;
}

int main(void)
{
    pages();
    traps();
    refused_hashes();
    refused_encoders();
    refused_batches();
    IS(mprotect(page, size, PROT_READ | PROT_WRITE) == 0);
    IS(APART(to_the_edge()) == 0);
    IS(APART(write_to_the_edge()) == 0);
    return checked("pages");
}
