/* Holds what the header itself computes to what the library answers: the length of a report by its id, the DJ
 * types that only go to the receiver, the length of a mouse payload. Prints each refusal's number and text as a
 * row of the table of docs/SCRIPTS.md. */
#include <stdio.h>
#include <stdlib.h>
#include <string.h>

#include "blotterfinch.h"

enum { IDS = 256, LONGEST_TRIED = 64, REFUSALS = 256 };

static void fail(const char *what, unsigned number)
{
    fprintf(stderr, "header: %s: %u\n", what, number);
    exit(1);
}

/* Reading refuses a report for its id exactly where it has no length, and for its length where it has another. */
static void check_length(unsigned id)
{
    uint8_t bytes[LONGEST_TRIED] = {0};
    size_t wanted = blotterfinch_report_length((uint8_t)id);

    bytes[0] = (uint8_t)id;
    bytes[1] = 1;
    for (size_t length = 1; length <= LONGEST_TRIED; length++) {
        uint8_t refusal = blotterfinch_read(bytes, length).refusal;
        uint8_t due = wanted == 0        ? BLOTTERFINCH_UNKNOWN_ID
                      : wanted != length ? BLOTTERFINCH_WRONG_LENGTH
                                         : BLOTTERFINCH_ACCEPTED;

        if (refusal != due)
            fail("length of id", id);
    }
    if (wanted > BLOTTERFINCH_LONGEST)
        fail("longer than the longest", id);
}

static void check_dj_type(uint8_t type, uint8_t device, uint8_t due)
{
    uint8_t bytes[15] = {BLOTTERFINCH_DJ_SHORT, device, type};

    if (blotterfinch_read(bytes, sizeof bytes).refusal != due)
        fail("DJ type", type);
}

static void check_dj_types(void)
{
    const uint8_t sent_up[] = {BLOTTERFINCH_KEYBOARD,       BLOTTERFINCH_MOUSE,         BLOTTERFINCH_CONSUMER_CONTROL,
                               BLOTTERFINCH_SYSTEM_CONTROL, BLOTTERFINCH_MEDIA_CENTER,  BLOTTERFINCH_DEVICE_UNPAIRED,
                               BLOTTERFINCH_DEVICE_PAIRED,  BLOTTERFINCH_CONNECTION_STATUS};

    for (size_t i = 0; i < sizeof sent_up; i++) {
        check_dj_type(sent_up[i], BLOTTERFINCH_DEVICES, BLOTTERFINCH_ACCEPTED);
        check_dj_type(sent_up[i], BLOTTERFINCH_RECEIVER, BLOTTERFINCH_NO_SUCH_PORT);
    }
    check_dj_type(BLOTTERFINCH_DJ_ERROR, BLOTTERFINCH_RECEIVER, BLOTTERFINCH_ACCEPTED);
    check_dj_type(BLOTTERFINCH_KEYBOARD_LEDS, 1, BLOTTERFINCH_DOWN_ONLY);
    check_dj_type(BLOTTERFINCH_SWITCH, BLOTTERFINCH_RECEIVER, BLOTTERFINCH_DOWN_ONLY);
    check_dj_type(BLOTTERFINCH_GET_PAIRED, BLOTTERFINCH_RECEIVER, BLOTTERFINCH_DOWN_ONLY);
}

static void check_sub_id(uint8_t sub_id)
{
    uint8_t bytes[7] = {BLOTTERFINCH_HIDPP_SHORT, BLOTTERFINCH_RECEIVER, sub_id};

    if (blotterfinch_read(bytes, sizeof bytes).refusal != BLOTTERFINCH_ACCEPTED)
        fail("sub id", sub_id);
}

/* A mouse report has the same movement, short and long: the first bytes at its start. */
static void check_mouse(uint8_t id)
{
    const uint8_t payload[BLOTTERFINCH_MOUSE_PAYLOAD] = {0x01, 0x00, 0xFF, 0x1F, 0x00, 0x01, 0xFF};
    uint8_t bytes[BLOTTERFINCH_LONGEST] = {id, 1, BLOTTERFINCH_MOUSE};
    blotterfinch_report r;
    blotterfinch_movement m;

    memcpy(bytes + 3, payload, sizeof payload);
    r = blotterfinch_read(bytes, blotterfinch_report_length(id));
    m = blotterfinch_mouse(bytes + r.start, BLOTTERFINCH_MOUSE_PAYLOAD);
    if (m.refusal != BLOTTERFINCH_ACCEPTED || m.buttons != 1 || m.x != -1 || m.y != 1 || m.wheel != 1 || m.pan != -1)
        fail("mouse payload of id", id);
    if (blotterfinch_mouse(bytes + r.start, r.length).refusal != BLOTTERFINCH_WRONG_LENGTH)
        fail("mouse payload as long as the report", id);
}

int main(void)
{
    char version[32];
    const char *none = blotterfinch_refusal_text(REFUSALS - 1);

    for (unsigned id = 0; id < IDS; id++)
        check_length(id);
    check_dj_types();
    for (unsigned sub_id = BLOTTERFINCH_SET_REGISTER; sub_id <= BLOTTERFINCH_GET_LONG_REGISTER; sub_id++)
        check_sub_id((uint8_t)sub_id);
    check_sub_id(BLOTTERFINCH_HIDPP1_ERROR);
    check_sub_id(BLOTTERFINCH_HIDPP2_ERROR);
    check_mouse(BLOTTERFINCH_DJ_SHORT);
    check_mouse(BLOTTERFINCH_DJ_LONG);
    snprintf(version, sizeof version, "%d.%d.%d", BLOTTERFINCH_VERSION_MAJOR, BLOTTERFINCH_VERSION_MINOR,
             BLOTTERFINCH_VERSION_PATCH);
    if (strcmp(version, BLOTTERFINCH_VERSION) != 0)
        fail("the version's text is not its numbers", 0);
    for (unsigned refusal = 1; refusal < REFUSALS; refusal++)
        if (strcmp(blotterfinch_refusal_text((uint8_t)refusal), none) != 0)
            printf("| %u | %s |\n", refusal, blotterfinch_refusal_text((uint8_t)refusal));
    return 0;
}
