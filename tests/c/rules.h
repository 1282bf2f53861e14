/* The rules of document 01 that need no station, in plain C: what the reader of the tests and the station of the
 * benchmark have in common. It shares the header's refusal numbers, and nothing else, with the library. */
#ifndef RULES_H
#define RULES_H

#include <stdbool.h>
#include <stddef.h>
#include <stdint.h>

#include "blotterfinch.h"

/* 01, "Report sizes and bytes". */
enum { HIDPP_SHORT = 0x10, HIDPP_LONG = 0x11, DJ_SHORT = 0x20, DJ_LONG = 0x21 };
enum { HIDPP_SHORT_LENGTH = 7, HIDPP_LONG_LENGTH = 20, DJ_SHORT_LENGTH = 15, DJ_LONG_LENGTH = 32 };
enum { HIDPP_PARAMETERS = 4, DJ_PARAMETERS = 3 };
enum { DEVICES = 6, RECEIVER = 0xFF };

/* DJ types, by their names in document 001. */
enum {
    KEYBOARD_LEDS = 0x0E,
    DEVICE_UNPAIRED = 0x40,
    DEVICE_PAIRED = 0x41,
    CONNECTION_STATUS = 0x42,
    DJ_COMMANDS = 0x80,
    SWITCH_AND_KEEP_ALIVE = 0x80,
    GET_PAIRED_DEVICES = 0x81
};
enum { PAIRED_EMPTY = 1 << 1 };

/* HID++ sub ids, by their names in document 004; below them the feature indexes. */
enum {
    FEATURE_INDEX_END = 0x40,
    SET_REGISTER = 0x80,
    GET_REGISTER = 0x81,
    SET_LONG_REGISTER = 0x82,
    GET_LONG_REGISTER = 0x83
};
enum { GET_FEATURE = 0, PING = 1 };

static inline bool is_device(uint8_t index)
{
    return index >= 1 && index <= DEVICES;
}

static inline bool is_port(uint8_t index)
{
    return is_device(index) || index == RECEIVER;
}

static inline bool is_hidpp(uint8_t id)
{
    return id == HIDPP_SHORT || id == HIDPP_LONG;
}

/* The length of a report with this id, or 0 where no report has it. */
static inline size_t report_length(uint8_t id)
{
    switch (id) {
    case HIDPP_SHORT: return HIDPP_SHORT_LENGTH;
    case HIDPP_LONG: return HIDPP_LONG_LENGTH;
    case DJ_SHORT: return DJ_SHORT_LENGTH;
    case DJ_LONG: return DJ_LONG_LENGTH;
    default: return 0;
    }
}

/* 01, refusals 5 and 6. */
static inline uint8_t hidpp_refusal(const uint8_t *bytes)
{
    uint8_t byte2 = bytes[2];

    if (!is_port(bytes[1]))
        return BLOTTERFINCH_NO_SUCH_PORT;
    if ((byte2 >= 0x84 && byte2 <= 0x8E) || (byte2 >= 0x90 && byte2 <= 0xFE))
        return BLOTTERFINCH_RESERVED_SUB_ID;
    return BLOTTERFINCH_ACCEPTED;
}

/* 01, refusals 4 and 5. */
static inline uint8_t dj_refusal(const uint8_t *bytes)
{
    uint8_t type = bytes[2];

    if (type >= DJ_COMMANDS || type == KEYBOARD_LEDS)
        return BLOTTERFINCH_DOWN_ONLY;
    if (type == DEVICE_PAIRED && (bytes[3] & PAIRED_EMPTY) != 0)
        return BLOTTERFINCH_ACCEPTED;
    if (type > CONNECTION_STATUS ? is_port(bytes[1]) : is_device(bytes[1]))
        return BLOTTERFINCH_ACCEPTED;
    return BLOTTERFINCH_NO_SUCH_PORT;
}

/* 01, "Number 9", without the ticks. */
static inline bool is_forbidden(uint8_t byte2, uint8_t byte3, const uint8_t *parameters, size_t length)
{
    bool is_short = length == HIDPP_SHORT_LENGTH - HIDPP_PARAMETERS;
    bool is_long = length == HIDPP_LONG_LENGTH - HIDPP_PARAMETERS;
    uint8_t function = byte3 >> 4;
    uint8_t software_id = byte3 & 0x0F;

    if (!is_short && !is_long)
        return true;
    switch (byte2) {
    case SET_REGISTER:
    case GET_REGISTER:
    case GET_LONG_REGISTER:
        return is_long;
    case SET_LONG_REGISTER:
        return is_short;
    }
    if (byte2 >= FEATURE_INDEX_END || software_id == 0)
        return true;
    return byte2 == 0 && function == GET_FEATURE && parameters[0] == 0 && parameters[1] == 0;
}

/* 01, refusal 10. offset + length could wrap round. */
static inline bool fits(size_t length, size_t buffer_length, size_t offset)
{
    return offset <= buffer_length && length <= buffer_length - offset;
}

#endif
