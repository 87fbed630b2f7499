/* What the programs here share: checks that are counted, and said where they fail. */
#include <stdio.h>

static int checks, failures;

static void is(const char *file, int line, const char *what, int so)
{
    checks++;
    if (!so) {
        failures++;
        printf("%s:%d: not so: %s\n", file, line, what);
    }
}
#define IS(so) is(__FILE__, __LINE__, #so, so)

/* The exit status. */
static int checked(const char *what)
{
    printf("%s: %d checks, %d failed\n", what, checks, failures);
    return failures != 0;
}
