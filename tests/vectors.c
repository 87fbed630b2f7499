// What the program `vectors` must print, by libxxhash: XXH3-64 of made inputs, in one shot and streamed in pieces.
#include <stdio.h>
#include <stdint.h>
#include <xxhash.h>

static uint8_t made[65536];

static XXH64_hash_t streamed(size_t n, size_t cut) {
    XXH3_state_t *state = XXH3_createState();
    XXH3_64bits_reset(state);
    for (size_t i = 0; i < n; i += cut)
        XXH3_64bits_update(state, made + i, n - i < cut ? n - i : cut);
    XXH64_hash_t hash = XXH3_64bits_digest(state);
    XXH3_freeState(state);
    return hash;
}

static void line(size_t n) {
    static const size_t cuts[] = {1, 21, 64, 256, 1000};
    printf("%zu %016llx", n, (unsigned long long)XXH3_64bits(made, n));
    for (size_t i = 0; i < sizeof cuts / sizeof *cuts; i++)
        printf(" %016llx", (unsigned long long)streamed(n, cuts[i]));
    printf("\n");
}

int main(void) {
    static const size_t lengths[] = {403,  511,  512,  513,  1023, 1024, 1025,  2047,
                                     2048, 2049, 2240, 2367, 4096, 10000, 65535, 65536};
    uint64_t word = 2654435761u;
    for (size_t i = 0; i < sizeof made; i++) {
        made[i] = (uint8_t)(word >> 56);
        word *= 11400714785074694797u;
    }
    for (size_t n = 0; n <= 300; n++)
        line(n);
    for (size_t i = 0; i < sizeof lengths / sizeof *lengths; i++)
        line(lengths[i]);
    return 0;
}
