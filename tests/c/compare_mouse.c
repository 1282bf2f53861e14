#include "compare.h"

#include <stdio.h>
#include <stdlib.h>

#include "plain.h"
#include "support.h"

enum { PAYLOAD_LENGTH = 7, PAYLOAD_LENGTH_MAX = 12 };

static void print_movement(const char *side, blotterfinch_movement m)
{
    printf("%s: refusal=%d buttons=%04X x=%d y=%d wheel=%d pan=%d\n", side, m.refusal, m.buttons, m.x,
           m.y, m.wheel, m.pan);
}

static void compare(const uint8_t *payload, size_t length)
{
    const uint8_t *lent = lend(payload, length);
    blotterfinch_movement library = blotterfinch_mouse(lent, length);
    blotterfinch_movement plain = plain_mouse(payload, length);

    if (library.refusal != plain.refusal || library.buttons != plain.buttons || library.x != plain.x ||
        library.y != plain.y || library.wheel != plain.wheel || library.pan != plain.pan ||
        was_written(lent, payload, length)) {
        print_bytes("mouse: difference for the payload", payload, length);
        print_movement("library", library);
        print_movement("plain", plain);
        print_bytes("the payload after the library's call", lent, length);
        exit(1);
    }
    count(MOUSE, plain.refusal, length);
}

/* X and Y are bytes 2 to 4, so these are all pairs of their 4096 values. */
static void every_x_and_y(void)
{
    uint8_t payload[PAYLOAD_LENGTH];

    for (uint32_t xy = 0; xy < UINT32_C(1) << 24; xy++) {
        fill(payload, sizeof payload);
        payload[2] = (uint8_t)xy;
        payload[3] = (uint8_t)(xy >> 8);
        payload[4] = (uint8_t)(xy >> 16);
        compare(payload, sizeof payload);
    }
}

static void any_payload(void)
{
    static uint8_t payload[LENT_MAX];

    compare(NULL, 0);
    for (int i = 0; i < WRAPS; i++)
        compare(payload, wraps[i] + PAYLOAD_LENGTH);
    for (int i = 0; i < 500000; i++) {
        size_t length = below(PAYLOAD_LENGTH_MAX + 1);

        fill(payload, length);
        compare(payload, length);
    }
}

void compare_mouse(void)
{
    every_x_and_y();
    any_payload();
}
