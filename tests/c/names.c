/* Every enumerator of the header beside an answer of the library that must have its value. names.h, which run.sh makes of the header, names
 * them all: one that is not looked at here, or not once, fails. */
#include "pierloft.h"
#include "check.h"
#include <string.h>

static const char *const names[] = {
#define NAME(name) #name,
#include "names.h"
};
enum { NAMES = sizeof names / sizeof *names };
static int looks[NAMES];

static void saw(const char *name, uint32_t value, uint32_t answer)
{
    is(name, 0, "the library answers its value", value == answer);
    for (int i = 0; i < NAMES; i++)
        looks[i] += strcmp(names[i], name) == 0;
}
#define ANSWER(name, answer) saw(#name, name, answer)
#define DECODED(image) pierloft_decode(image, sizeof image, 0, pierloft_test())

#define START(count) 1, count, 0, 0, 0, 7, 0, 0, 0, 0, 0, 0, 0
#define ITEM(type, compression) 2, type, compression, 2, 0, 0, 0, 0, 0, 0, 0, 1, 0, 0, 0, 0, 0, 0, 0, 0, 0, 'a'
#define CLEAR 4, 2, 0, 0, 0, 0, 0, 0, 0
#define END(last) 3, 0, 0, 0, 0, 0, 0, 0, 0, 0x4a, 0x4c, 0x31, last

static const uint8_t zero[] = {0};
static const uint8_t start[] = {START(1)}, item[] = {ITEM(0, 0)}, clear[] = {CLEAR}, end[] = {END(1)};
static const uint8_t other_type[] = {ITEM(4, 0)}, compressed[] = {ITEM(0, 1)}, other_magic[] = {END(0)};
static const uint8_t insufficient[] = {START(1), END(1)}, many[] = {START(0), CLEAR}, mismatch[] = {START(0), END(1)};
static uint8_t buffer[64];

/* TEST with four codes that are none of the header's numbers for the types. */
static pierloft_dialect codes(void)
{
    pierloft_dialect d = pierloft_test();
    d.value = 40;
    d.tombstone = 41;
    d.weak = 42;
    d.indirection = 43;
    return d;
}

/* The type that is read where this code stands. */
static uint32_t type_of(uint8_t code)
{
    uint8_t image[] = {ITEM(0, 0)};
    image[1] = code;
    return pierloft_decode(image, sizeof image, 0, codes()).value_type;
}

/* The code that is written for this type. */
static uint32_t code_of(uint8_t type)
{
    return pierloft_encode_item(buffer, sizeof buffer, codes(), type, 2, NULL, 0, NULL, 0).number == 0 ? buffer[1] : 0;
}

static uint32_t outcome_of(const uint8_t *image, size_t length)
{
    const pierloft_reader begin = {0, 0, 0};
    pierloft_stepped step = pierloft_step(image, length, begin, pierloft_test());
    IS(step.number == 0 && !step.accepted && step.outcome == step.reader.outcome);
    return step.outcome;
}

static void refusals(void)
{
    const size_t past = (size_t)1 << 32;
    const pierloft_reader begin = {0, 0, 0}, beyond = {1, 0, 0};
    const pierloft_writer empty = {0, 0, 0, 0}, opened = {13, 0, 1, 1};
    const pierloft_dialect d = pierloft_test();
    pierloft_dialect bad = d;
    bad.length = 0;
    ANSWER(PIERLOFT_REFUSED_DIALECT, pierloft_check(bad));
    ANSWER(PIERLOFT_REFUSED_TOO_LONG, pierloft_kept(past, begin).number);
    ANSWER(PIERLOFT_REFUSED_STATE, pierloft_kept(0, beyond).number);
    ANSWER(PIERLOFT_REFUSED_COUNT, pierloft_open(buffer, sizeof buffer, d, empty, past, 7).number);
    ANSWER(PIERLOFT_REFUSED_ORDER, pierloft_close(buffer, sizeof buffer, d, empty).number);
    ANSWER(PIERLOFT_REFUSED_KEY, pierloft_put_item(buffer, sizeof buffer, d, opened, 0, 2, NULL, 0, NULL, 0).number);
    ANSWER(PIERLOFT_REFUSED_COUNTED, pierloft_close(buffer, sizeof buffer, d, opened).number);
    ANSWER(PIERLOFT_REFUSED_NO_ROOM, pierloft_encode_start(buffer, 12, d, 1, 7).number);
}

static void faults(void)
{
    ANSWER(PIERLOFT_FAULT_INCOMPLETE, pierloft_decode(NULL, 0, 0, pierloft_test()).number);
    ANSWER(PIERLOFT_FAULT_TAG, DECODED(zero).number);
    ANSWER(PIERLOFT_FAULT_VALUE_TYPE, DECODED(other_type).number);
    ANSWER(PIERLOFT_FAULT_COMPRESSION, DECODED(compressed).number);
    ANSWER(PIERLOFT_FAULT_TRAILER, DECODED(other_magic).number);
    ANSWER(PIERLOFT_FAULT_NOT_AN_ITEM, pierloft_key(clear, sizeof clear, 0, pierloft_test()).number);
}

static void outcomes(void)
{
    ANSWER(PIERLOFT_OUTCOME_CLEAN, outcome_of(NULL, 0));
    ANSWER(PIERLOFT_OUTCOME_TORN, outcome_of(zero, sizeof zero));
    ANSWER(PIERLOFT_OUTCOME_INSUFFICIENT, outcome_of(insufficient, sizeof insufficient));
    ANSWER(PIERLOFT_OUTCOME_TOO_MANY, outcome_of(many, sizeof many));
    ANSWER(PIERLOFT_OUTCOME_MISMATCH, outcome_of(mismatch, sizeof mismatch));
}

static void types(void)
{
    ANSWER(PIERLOFT_TYPE_VALUE, type_of(40));
    ANSWER(PIERLOFT_TYPE_TOMBSTONE, type_of(41));
    ANSWER(PIERLOFT_TYPE_WEAK_TOMBSTONE, type_of(42));
    ANSWER(PIERLOFT_TYPE_INDIRECTION, type_of(43));
    IS(code_of(PIERLOFT_TYPE_VALUE) == 40 && code_of(PIERLOFT_TYPE_TOMBSTONE) == 41);
    IS(code_of(PIERLOFT_TYPE_WEAK_TOMBSTONE) == 42 && code_of(PIERLOFT_TYPE_INDIRECTION) == 43);
}

static void tags(void)
{
    ANSWER(PIERLOFT_TAG_START, DECODED(start).tag);
    ANSWER(PIERLOFT_TAG_ITEM, DECODED(item).tag);
    ANSWER(PIERLOFT_TAG_END, DECODED(end).tag);
    ANSWER(PIERLOFT_TAG_CLEAR, DECODED(clear).tag);
}

int main(void)
{
    refusals();
    faults();
    outcomes();
    types();
    tags();
    for (int i = 0; i < NAMES; i++)
        is(names[i], 0, "this test looks at it, once", looks[i] == 1);
    return checked("names");
}
