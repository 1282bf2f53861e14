#include "plain.h"

#include <string.h>

#include "rules.h"

enum { MOUSE_PAYLOAD_LENGTH = 7 };

size_t plain_report_length(uint8_t id)
{
    return report_length(id);
}

static blotterfinch_report refused(uint8_t refusal)
{
    blotterfinch_report report = {0};

    report.refusal = refusal;
    return report;
}

blotterfinch_report plain_read(const uint8_t *bytes, size_t bytes_length)
{
    blotterfinch_report report = {0};
    size_t length;
    bool hidpp;
    uint8_t refusal;

    if (bytes_length == 0)
        return refused(BLOTTERFINCH_EMPTY_REPORT);
    length = report_length(bytes[0]);
    if (length == 0)
        return refused(BLOTTERFINCH_UNKNOWN_ID);
    if (length != bytes_length)
        return refused(BLOTTERFINCH_WRONG_LENGTH);

    hidpp = is_hidpp(bytes[0]);
    refusal = hidpp ? hidpp_refusal(bytes) : dj_refusal(bytes);
    if (refusal != BLOTTERFINCH_ACCEPTED)
        return refused(refusal);

    report.id = bytes[0];
    report.device = bytes[1];
    report.byte2 = bytes[2];
    report.byte3 = bytes[3];
    report.start = hidpp ? HIDPP_PARAMETERS : DJ_PARAMETERS;
    report.length = (uint8_t)(length - report.start);
    return report;
}

static blotterfinch_written not_written(uint8_t refusal)
{
    blotterfinch_written written = {0, 0};

    written.refusal = refusal;
    return written;
}

/* 01, refusal 10, and "Writing". */
static blotterfinch_written write_frame(const uint8_t *frame, size_t length,
                                        uint8_t *buffer, size_t buffer_length, size_t offset)
{
    blotterfinch_written written = {0, 0};

    if (!fits(length, buffer_length, offset))
        return not_written(BLOTTERFINCH_NO_ROOM);
    memcpy(buffer + offset, frame, length);
    written.length = length;
    return written;
}

blotterfinch_written plain_request_frame(uint8_t device, uint8_t byte2, uint8_t byte3,
                                         const uint8_t *parameters, size_t parameters_length,
                                         uint8_t *buffer, size_t buffer_length, size_t offset)
{
    uint8_t frame[HIDPP_LONG_LENGTH];
    size_t length;

    if (!is_port(device))
        return not_written(BLOTTERFINCH_NO_SUCH_PORT);
    if (is_forbidden(byte2, byte3, parameters, parameters_length))
        return not_written(BLOTTERFINCH_FORBIDDEN);

    length = HIDPP_PARAMETERS + parameters_length;
    frame[0] = length == HIDPP_SHORT_LENGTH ? HIDPP_SHORT : HIDPP_LONG;
    frame[1] = device;
    frame[2] = byte2;
    frame[3] = byte3;
    memcpy(frame + HIDPP_PARAMETERS, parameters, parameters_length);
    return write_frame(frame, length, buffer, buffer_length, offset);
}

blotterfinch_written plain_switch_frame(uint8_t device_bits, uint8_t timeout,
                                        uint8_t *buffer, size_t buffer_length, size_t offset)
{
    uint8_t frame[DJ_SHORT_LENGTH] = {DJ_SHORT, RECEIVER, SWITCH_AND_KEEP_ALIVE};

    if (device_bits & 0xC0)
        return not_written(BLOTTERFINCH_RESERVED_BITS);
    frame[3] = device_bits;
    frame[4] = timeout;
    return write_frame(frame, DJ_SHORT_LENGTH, buffer, buffer_length, offset);
}

blotterfinch_written plain_get_paired_frame(uint8_t *buffer, size_t buffer_length, size_t offset)
{
    const uint8_t frame[DJ_SHORT_LENGTH] = {DJ_SHORT, RECEIVER, GET_PAIRED_DEVICES};

    return write_frame(frame, DJ_SHORT_LENGTH, buffer, buffer_length, offset);
}

blotterfinch_written plain_led_frame(uint8_t device, uint8_t leds,
                                     uint8_t *buffer, size_t buffer_length, size_t offset)
{
    uint8_t frame[DJ_SHORT_LENGTH] = {DJ_SHORT, 0, KEYBOARD_LEDS};

    if (!is_device(device))
        return not_written(BLOTTERFINCH_NO_SUCH_PORT);
    frame[1] = device;
    frame[3] = leds;
    return write_frame(frame, DJ_SHORT_LENGTH, buffer, buffer_length, offset);
}

/* A two's complement field of this number of bits. */
static int signed_field(unsigned value, unsigned bits)
{
    int number = (int)value;

    return number < 1 << (bits - 1) ? number : number - (1 << bits);
}

/* 01, "Taking a DJ report": mouse. */
blotterfinch_movement plain_mouse(const uint8_t *payload, size_t payload_length)
{
    blotterfinch_movement movement = {0, 0, 0, 0, 0, 0};

    if (payload_length != MOUSE_PAYLOAD_LENGTH) {
        movement.refusal = BLOTTERFINCH_WRONG_LENGTH;
        return movement;
    }
    movement.buttons = (uint16_t)(payload[0] | payload[1] << 8);
    movement.x = (int16_t)signed_field(payload[2] | (payload[3] & 0x0Fu) << 8, 12);
    movement.y = (int16_t)signed_field(payload[3] >> 4 | (unsigned)payload[4] << 4, 12);
    movement.wheel = (int8_t)signed_field(payload[5], 8);
    movement.pan = (int8_t)signed_field(payload[6], 8);
    return movement;
}
