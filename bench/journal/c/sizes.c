/* The size of every state, as C has it. */
#include "pierloft.h"
#include <stdio.h>

#define SIZE(type, what) printf("| %s | %s | %zu |\n", #type, what, sizeof(type))

int main(void)
{
    puts("| state | of | bytes |\n|---|---|---|");
    SIZE(pierloft_dialect, "a dialect");
    SIZE(pierloft_reader, "a reading");
    SIZE(pierloft_writer, "a writer");
    SIZE(pierloft_hasher, "a hash by pieces");
    return 0;
}
