/* Cuts a stream into reports, reads each, and writes a ping into a larger buffer. */
#include <stdio.h>

#include "blotterfinch.h"

/* The payload is the first BLOTTERFINCH_MOUSE_PAYLOAD bytes at the report's start; padding follows it. */
static void show_mouse(const uint8_t *payload)
{
    blotterfinch_movement m = blotterfinch_mouse(payload, BLOTTERFINCH_MOUSE_PAYLOAD);

    if (m.refusal != BLOTTERFINCH_ACCEPTED)
        printf("refused %d: %s\n", m.refusal, blotterfinch_refusal_text(m.refusal));
    else
        printf("moved buttons=%04X x=%d y=%d wheel=%d pan=%d\n", m.buttons, m.x, m.y, m.wheel, m.pan);
}

static void show_report(const uint8_t *bytes, size_t length)
{
    blotterfinch_report r = blotterfinch_read(bytes, length);

    if (r.refusal != BLOTTERFINCH_ACCEPTED) {
        printf("refused %d: %s\n", r.refusal, blotterfinch_refusal_text(r.refusal));
        return;
    }
    printf("report id=%02X device=%02X byte2=%02X byte3=%02X start=%d length=%d\n", r.id, r.device,
           r.byte2, r.byte3, r.start, r.length);
    if ((r.id == BLOTTERFINCH_DJ_SHORT || r.id == BLOTTERFINCH_DJ_LONG) && r.byte2 == BLOTTERFINCH_MOUSE)
        show_mouse(bytes + r.start);
}

/* Whole reports, one after the other. What is left at the end is less than a report, or has no id. */
static void show_stream(const uint8_t *bytes, size_t length)
{
    while (length > 0) {
        size_t one = blotterfinch_report_length(bytes[0]);

        if (one == 0 || one > length) {
            printf("%zu bytes are no report\n", length);
            return;
        }
        show_report(bytes, one);
        bytes += one;
        length -= one;
    }
}

/* GetProtocolVersion to device 2, software id 1, ping byte 0x5A. */
static void write_ping(uint8_t *buffer, size_t length, size_t offset)
{
    const uint8_t parameters[] = {0x00, 0x00, 0x5A};
    blotterfinch_written w = blotterfinch_request_frame(2, 0x00, 0x11, parameters, sizeof parameters,
                                                        buffer, length, offset);

    if (w.refusal != BLOTTERFINCH_ACCEPTED)
        printf("refused %d, %s:", w.refusal, blotterfinch_refusal_text(w.refusal));
    else
        printf("wrote %zu:", w.length);
    for (size_t i = 0; i < length; i++)
        printf(" %02X", buffer[i]);
    printf("\n");
}

int main(void)
{
    const uint8_t stream[] = {
        0x10, 0x02, 0x00, 0x11, 0x02, 0x00, 0x5A,                                  /* the reply to a ping */
        0x20, 0x01, 0x02, 0x01, 0x00, 0xFF, 0x1F, 0x00, 0x01, 0xFF, 0, 0, 0, 0, 0, /* a mouse */
        0x10, 0x09, 0x00, 0x11, 0x02, 0x00, 0x5A,                                  /* no such device */
        0x20, 0x01, 0x02,                                                          /* a report cut short */
    };
    uint8_t buffer[12] = {0};

    printf("blotterfinch %s\n", BLOTTERFINCH_VERSION);
    show_stream(stream, sizeof stream);
    write_ping(buffer, sizeof buffer, 3);
    write_ping(buffer, sizeof buffer, 6);
    return 0;
}
