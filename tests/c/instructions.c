/* Reads the same reports with the library and with the plain implementation, for bench/reading to count
 * the instructions of both. Prints how often it called each. */
#include <stdio.h>
#include <string.h>

#include "plain.h"

enum { ROUNDS = 1000 };

struct report {
    size_t length;
    uint8_t bytes[32];
};

static const struct report mix[] = {
    {15, {0x20, 0x02, 0x02, 0x01, 0x00, 0xFF, 0x1F, 0x00, 0x01, 0xFF}}, /* mouse */
    {7, {0x10, 0x02, 0x00, 0x11, 0x02, 0x00, 0x5A}},                    /* reply to a ping */
    {20, {0x11, 0x02, 0x07, 0x00, 0x32, 0x28, 0x00}},                   /* battery event */
    {15, {0x20, 0x02, 0x42, 0x01}},                                     /* Connection Status */
    {7, {0x10, 0x07, 0x00, 0x11, 0x02, 0x00, 0x5A}},                    /* no such port */
};

enum { REPORTS = sizeof mix / sizeof mix[0] };

int main(void)
{
    for (int round = 0; round < ROUNDS; round++)
        for (int i = 0; i < REPORTS; i++) {
            blotterfinch_report library = blotterfinch_read(mix[i].bytes, mix[i].length);
            blotterfinch_report plain = plain_read(mix[i].bytes, mix[i].length);

            if (memcmp(&library, &plain, sizeof library) != 0) {
                printf("report %d of the mix is read differently\n", i);
                return 1;
            }
        }
    printf("%d\n", ROUNDS * REPORTS);
    return 0;
}
