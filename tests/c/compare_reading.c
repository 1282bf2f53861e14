#include "compare.h"

#include <stdio.h>
#include <stdlib.h>

#include "plain.h"
#include "support.h"

enum { LENGTH_MAX = 64, EMPTY_LIST = 1 << 1 };

static void print_report(const char *side, blotterfinch_report r)
{
    printf("%s: refusal=%d id=%02X device=%02X byte2=%02X byte3=%02X start=%d length=%d\n", side,
           r.refusal, r.id, r.device, r.byte2, r.byte3, r.start, r.length);
}

static void compare(const uint8_t *bytes, size_t length)
{
    const uint8_t *lent = lend(bytes, length);
    blotterfinch_report library = blotterfinch_read(lent, length);
    blotterfinch_report plain = plain_read(bytes, length);

    if (library.refusal != plain.refusal || library.id != plain.id || library.device != plain.device ||
        library.byte2 != plain.byte2 || library.byte3 != plain.byte3 ||
        library.start != plain.start || library.length != plain.length ||
        was_written(lent, bytes, length)) {
        print_bytes("read: difference for the report", bytes, length);
        print_report("library", library);
        print_report("plain", plain);
        print_bytes("the report after the library's call", lent, length);
        exit(1);
    }
    count(READ, plain.refusal, (size_t)plain.start + plain.length);
}

/* All that the rules look at: bytes 0, 1 and 2, and one bit of byte 3; where no report has the id, any
 * length. */
static void every_header(void)
{
    uint8_t report[3 + LENGTH_MAX];

    for (uint32_t header = 0; header < UINT32_C(1) << 25; header++) {
        size_t length = plain_report_length((uint8_t)header);

        if (length == 0)
            length = 1 + below(LENGTH_MAX);
        fill(report + 3, length);
        report[0] = (uint8_t)header;
        report[1] = (uint8_t)(header >> 8);
        report[2] = (uint8_t)(header >> 16);
        report[3] = (uint8_t)((report[3] & ~EMPTY_LIST) | (header >> 24) * EMPTY_LIST);
        compare(report, length);
    }
}

static void every_length(void)
{
    static uint8_t report[LENT_MAX];

    compare(NULL, 0);
    for (int id = 0; id <= 0xFF; id++) {
        for (size_t length = 0; length <= LENGTH_MAX; length++)
            for (int i = 0; i < 64; i++) {
                fill(report, length);
                report[0] = (uint8_t)id;
                report[1] = any_device();
                report[2] = any_byte2();
                compare(report, length);
            }
        for (int i = 0; i < WRAPS; i++)
            compare(report, wraps[i] + plain_report_length((uint8_t)id));
    }
}

void compare_reading(void)
{
    every_header();
    every_length();
}
