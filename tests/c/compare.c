/* Compares the library with the plain implementation of the same rules. */
#include "compare.h"

#include <inttypes.h>
#include <stdio.h>

#include "support.h"

int main(void)
{
    const uint64_t seed = 1;
    uint64_t inputs = 0;

    setvbuf(stdout, NULL, _IOLBF, BUFSIZ);
    printf("seed %" PRIu64 "\n", seed);
    seed_random(seed);
    compare_reading();
    compare_writing();
    compare_mouse();
    for (int function = 0; function < FUNCTIONS; function++)
        inputs += print_counts((enum function)function);
    printf("%" PRIu64 " inputs compared, no difference\n", inputs);
    return 0;
}
