/* How much stack a call takes, its arguments and its answer included: each is run on a stack of its own that was painted before. The header
 * says how much it may be. */
#define _DEFAULT_SOURCE
#include "pierloft.h"
#include "check.h"
#include <string.h>
#include <ucontext.h>

enum { MOST = 4095, PAINT = 0xa5 };

static uint8_t stack[1 << 16], buffer[4096];
static const uint8_t bytes[2000] = {'a'};
static pierloft_hasher hasher;
static size_t length; /* of the journal in the buffer */

static void nothing(void) {}

static void hash(void) { pierloft_xxh3_64(bytes, sizeof bytes); }
static void finish(void) { pierloft_finish(hasher); }
static void finish_at(void) { pierloft_finish_at(hasher.acc, hasher.hold, hasher.total); }
static void absorb(void) { hasher = pierloft_absorb(hasher, bytes, sizeof bytes).state; }
static void absorb_at(void) { pierloft_absorb_at(hasher.acc, hasher.hold, &hasher.total, bytes, sizeof bytes); }
static void absorb_into(void) { pierloft_absorb_into(&hasher, bytes, sizeof bytes); }

static void write_raw(void)
{
    const pierloft_writer empty = {0, 0, 0, 0};
    length = pierloft_write_raw(buffer, sizeof buffer, pierloft_test(), empty, 7, 0, 2, bytes, 9, bytes, 1500).writer.position;
}

static void close_batch(void)
{
    const pierloft_writer full = {13 + 21 + 9 + 1500, 0, 1, 0};
    pierloft_close(buffer, sizeof buffer, pierloft_test(), full);
}

static void step(void)
{
    const pierloft_reader begin = {0, 0, 0};
    pierloft_step(buffer, length, begin, pierloft_test());
}

static void step_anew(void) /* the Item's two lengths differ, so it is hashed by pieces */
{
    buffer[13 + 13] ^= 1;
    step();
}

static void decode(void) { pierloft_decode(buffer, length, 13, pierloft_test()); }
static void key(void) { pierloft_key(buffer, length, 13, pierloft_test()); }
static void value(void) { pierloft_value(buffer, length, 13, pierloft_test()); }
static void body(void) { pierloft_body(length, 13, 13); }
static void check(void) { pierloft_check(pierloft_shipped()); }

static void kept(void)
{
    const pierloft_reader torn = {0, 1, PIERLOFT_OUTCOME_TORN};
    pierloft_kept(length, torn);
}

/* over the buffer's second half, where no other call looks */
enum { HALF = 2048 };
static uint8_t *const half = buffer + HALF;
static const pierloft_writer begin_half = {0, 0, 0, 0}, inside = {13, 0, 1, 2};

static void open_batch(void) { pierloft_open(half, HALF, pierloft_test(), begin_half, 2, 7); }
static void put_item(void) { pierloft_put_item(half, HALF, pierloft_test(), inside, 0, 2, bytes, 9, bytes, 1500); }
static void put_clear(void) { pierloft_put_clear(half, HALF, pierloft_test(), inside, 2); }
static void write_clear(void) { pierloft_write_clear(half, HALF, pierloft_test(), begin_half, 7, 2); }
static void encode_start(void) { pierloft_encode_start(half, HALF, pierloft_test(), 2, 7); }
static void encode_item(void) { pierloft_encode_item(half, HALF, pierloft_test(), 0, 2, bytes, 9, bytes, 1500); }
static void encode_end(void) { pierloft_encode_end(half, HALF, pierloft_test(), 7); }
static void encode_clear(void) { pierloft_encode_clear(half, HALF, pierloft_test(), 2); }
static void hasher_new(void) { pierloft_hasher_new(); }
static void abi(void) { pierloft_abi_1(); }

static size_t taken(void (*call)(void))
{
    ucontext_t here, there;
    size_t untouched = 0;
    memset(stack, PAINT, sizeof stack);
    getcontext(&there);
    there.uc_stack.ss_sp = stack;
    there.uc_stack.ss_size = sizeof stack;
    there.uc_link = &here;
    makecontext(&there, call, 0);
    swapcontext(&here, &there);
    while (untouched < sizeof stack && stack[untouched] == PAINT)
        untouched++;
    return sizeof stack - untouched;
}

int main(void)
{
    void (*const calls[])(void) = {hash,       absorb,      absorb_at,   absorb_into, finish,       finish_at,    write_raw,
                                   close_batch, step,       step_anew,   decode,      key,          value,        body,
                                   check,      kept,        open_batch,  put_item,    put_clear,    write_clear,  encode_start,
                                   encode_item, encode_end, encode_clear, hasher_new, abi};
    const size_t none = taken(nothing);
    size_t most = 0;
    hasher = pierloft_hasher_new();
    for (size_t i = 0; i < sizeof calls / sizeof *calls; i++) {
        taken(calls[i]); /* once, for the dynamic linker: it looks for memcpy on the caller's stack */
        size_t took = taken(calls[i]) - none;
        most = took > most ? took : most;
    }
    IS(length == 13 + 21 + 9 + 1500 + 13);
    IS(most > 256 && most <= MOST);
    printf("stack: %zu bytes at most\n", most);
    return checked("stack");
}
