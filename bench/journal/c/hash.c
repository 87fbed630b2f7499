/* libxxhash's XXH3-64, in one shot and by pieces with a state on the stack. Built twice: with its code included here and no vector
 * instructions asked for (NAME scalar), and over the library as it is installed (NAME shipped). */
#ifndef SCALAR
#define XXH_STATIC_LINKING_ONLY
#endif
#include <xxhash.h>

#define JOIN(a, b) a##_##b
#define NAMED(a, b) JOIN(a, b)

uint64_t NAMED(NAME, once)(const uint8_t *bytes, size_t length)
{
    return XXH3_64bits(bytes, length);
}

uint64_t NAMED(NAME, pieces)(const uint8_t *bytes, size_t length, size_t piece)
{
    XXH3_state_t state;
    XXH3_64bits_reset(&state);
    for (size_t at = 0; at < length; at += piece)
        XXH3_64bits_update(&state, bytes + at, length - at < piece ? length - at : piece);
    return XXH3_64bits_digest(&state);
}
