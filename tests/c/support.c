#define _DEFAULT_SOURCE /* MAP_ANONYMOUS */

#include "support.h"

#include <inttypes.h>
#include <stdio.h>
#include <stdlib.h>
#include <string.h>
#include <sys/mman.h>

#include "blotterfinch.h"

/* The outcomes that each function must show: lengths of what is accepted, and refusals. 0 ends a list. */
static const struct {
    const char *name;
    uint8_t lengths[5];
    uint8_t refusals[7];
} outcomes[FUNCTIONS] = {
    {"read", {7, 20, 15, 32}, {1, 2, 3, 4, 5, 6}},
    {"request_frame", {7, 20}, {5, 9, 10}},
    {"switch_frame", {15}, {14, 10}},
    {"get_paired_frame", {15}, {10}},
    {"led_frame", {15}, {5, 10}},
    {"mouse", {7}, {3}},
};

static uint64_t accepted[FUNCTIONS][UINT8_MAX + 1];
static uint64_t refused[FUNCTIONS][UINT8_MAX + 1];

void count(enum function function, uint8_t refusal, size_t length)
{
    if (refusal == BLOTTERFINCH_ACCEPTED)
        accepted[function][length]++;
    else
        refused[function][refusal]++;
}

static uint64_t print_count(const char *outcome, uint8_t number, uint64_t times)
{
    printf("  %s %2d: %" PRIu64 "\n", outcome, number, times);
    if (times == 0) {
        printf("this never occurred\n");
        exit(1);
    }
    return times;
}

uint64_t print_counts(enum function function)
{
    uint64_t sum = 0;

    printf("%s\n", outcomes[function].name);
    for (const uint8_t *length = outcomes[function].lengths; *length != 0; length++)
        sum += print_count("accepted, length", *length, accepted[function][*length]);
    for (const uint8_t *refusal = outcomes[function].refusals; *refusal != 0; refusal++)
        sum += print_count("refused with    ", *refusal, refused[function][*refusal]);
    return sum;
}

static uint64_t state;

void seed_random(uint64_t seed)
{
    state = seed;
}

/* splitmix64 */
static uint64_t next(void)
{
    uint64_t z = state += UINT64_C(0x9E3779B97F4A7C15);

    z = (z ^ z >> 30) * UINT64_C(0xBF58476D1CE4E5B9);
    z = (z ^ z >> 27) * UINT64_C(0x94D049BB133111EB);
    return z ^ z >> 31;
}

size_t below(size_t bound)
{
    return (size_t)(next() % bound);
}

uint8_t any_byte(void)
{
    return (uint8_t)next();
}

void fill(uint8_t *bytes, size_t length)
{
    for (size_t i = 0; i < length; i += 8) {
        uint64_t eight = next();

        memcpy(bytes + i, &eight, length - i < 8 ? length - i : 8);
    }
}

uint8_t any_device(void)
{
    static const uint8_t edges[] = {0, 1, 2, 3, 4, 5, 6, 7, 254, 255};

    return below(2) == 0 ? any_byte() : edges[below(sizeof edges)];
}

uint8_t any_byte2(void)
{
    static const uint8_t edges[] = {0x00, 0x02, 0x0E, 0x3F, 0x40, 0x41, 0x42, 0x43, 0x7F, 0x80, 0x81,
                                    0x82, 0x83, 0x84, 0x8E, 0x8F, 0x90, 0xFE, 0xFF};

    return below(2) == 0 ? any_byte() : edges[below(sizeof edges)];
}

const size_t wraps[WRAPS] = {0x100, WRAP_MAX};

static uint8_t *map_lending(void)
{
    uint8_t *pages = mmap(NULL, 2 * LENT_MAX, PROT_NONE, MAP_PRIVATE | MAP_ANONYMOUS, -1, 0);

    if (pages == MAP_FAILED || mprotect(pages, LENT_MAX, PROT_READ | PROT_WRITE) != 0) {
        perror("mmap");
        exit(2);
    }
    return pages;
}

const uint8_t *lend(const uint8_t *bytes, size_t length)
{
    static uint8_t *pages;

    if (pages == NULL)
        pages = map_lending();
    if (bytes == NULL)
        return NULL;
    return memcpy(pages + LENT_MAX - length, bytes, length);
}

int was_written(const uint8_t *lent, const uint8_t *bytes, size_t length)
{
    return length != 0 && memcmp(lent, bytes, length) != 0;
}

void print_bytes(const char *name, const uint8_t *bytes, size_t length)
{
    enum { SHOWN = 1024 };

    printf("%s (%zu bytes):", name, length);
    for (size_t i = 0; i < length && i < SHOWN; i++)
        printf(" %02X", bytes[i]);
    printf(length > SHOWN ? " ..\n" : "\n");
}
