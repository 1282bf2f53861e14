/* Unifying receiver reports without a station: reading one report, writing frames, mouse movement.
 *
 * For C99 and C++11. Link with libblotterfinch.a (x86-64). No call keeps a pointer, allocates, or has state
 * of its own. The archive has the six functions that are declared at the end; the two that are `static
 * inline` are compiled with the caller. The station, which pairs devices and matches replies to requests,
 * is not in it.
 *
 * What the caller owes, for every buffer of every call:
 * - the pointer covers as many bytes as the length beside it says;
 * - a null pointer with length 0 is an empty buffer;
 * - a buffer that the call writes overlaps no other buffer of that call;
 * - no other thread writes a buffer during the call, nor reads one that the call writes.
 */
#ifndef BLOTTERFINCH_H
#define BLOTTERFINCH_H

#include <stddef.h>
#include <stdint.h>

/* The version of this header and of the archive beside it. */
#define BLOTTERFINCH_VERSION_MAJOR 0
#define BLOTTERFINCH_VERSION_MINOR 1
#define BLOTTERFINCH_VERSION_PATCH 0
#define BLOTTERFINCH_VERSION "0.1.0"

#ifdef __cplusplus
extern "C" {
#endif

/* Byte 0 of a report or frame. */
enum blotterfinch_id {
    BLOTTERFINCH_HIDPP_SHORT = 0x10,
    BLOTTERFINCH_HIDPP_LONG = 0x11,
    BLOTTERFINCH_DJ_SHORT = 0x20,
    BLOTTERFINCH_DJ_LONG = 0x21
};

/* The longest report or frame, in bytes. */
enum { BLOTTERFINCH_LONGEST = 32 };

/* Byte 1: devices are 1 to BLOTTERFINCH_DEVICES. */
enum { BLOTTERFINCH_DEVICES = 6, BLOTTERFINCH_RECEIVER = 255 };

/* Byte 2 of a DJ report: below 0x40 what a device sent by radio, below 0x80 a notification of the receiver,
 * from 0x80 on a command to it. Other types exist. */
enum blotterfinch_dj_type {
    BLOTTERFINCH_KEYBOARD = 0x01,         /* payload: the first 7 bytes at its start */
    BLOTTERFINCH_MOUSE = 0x02,            /* 7 */
    BLOTTERFINCH_CONSUMER_CONTROL = 0x03, /* 4 */
    BLOTTERFINCH_SYSTEM_CONTROL = 0x04,   /* 1 */
    BLOTTERFINCH_MEDIA_CENTER = 0x08,     /* 1 */
    BLOTTERFINCH_KEYBOARD_LEDS = 0x0E,    /* only the host sends it */
    BLOTTERFINCH_DEVICE_UNPAIRED = 0x40,
    BLOTTERFINCH_DEVICE_PAIRED = 0x41,
    BLOTTERFINCH_CONNECTION_STATUS = 0x42,
    BLOTTERFINCH_DJ_ERROR = 0x7F,
    BLOTTERFINCH_SWITCH = 0x80,
    BLOTTERFINCH_GET_PAIRED = 0x81
};

/* Byte 2 of a HID++ report or request, where it is no feature index (0x00 to 0x3F). An error has the
 * failed request's bytes 2 and 3 in its bytes 3 and 4, and the code in byte 5. */
enum blotterfinch_sub_id {
    BLOTTERFINCH_SET_REGISTER = 0x80,
    BLOTTERFINCH_GET_REGISTER = 0x81,
    BLOTTERFINCH_SET_LONG_REGISTER = 0x82,
    BLOTTERFINCH_GET_LONG_REGISTER = 0x83,
    BLOTTERFINCH_HIDPP1_ERROR = 0x8F,
    BLOTTERFINCH_HIDPP2_ERROR = 0xFF
};

/* The bytes that blotterfinch_mouse takes. */
enum { BLOTTERFINCH_MOUSE_PAYLOAD = 7 };

/* Why a call was refused. The numbers that are left out, 7, 8, 11 to 13 and 15 to 17, need a station, which
 * this library does not have. Where several apply, the one that comes first in the function's comment is given. */
enum blotterfinch_refusal {
    BLOTTERFINCH_ACCEPTED = 0,
    /* The report has no byte. */
    BLOTTERFINCH_EMPTY_REPORT = 1,
    /* Byte 0 is none of 0x10, 0x11, 0x20, 0x21. */
    BLOTTERFINCH_UNKNOWN_ID = 2,
    /* The report is not as long as its id wants (7, 20, 15, 32), the mouse payload not 7 bytes. */
    BLOTTERFINCH_WRONG_LENGTH = 3,
    /* The DJ type is one that only the host sends: 0x0E, or 0x80 and above. */
    BLOTTERFINCH_DOWN_ONLY = 4,
    /* The device is not 1 to 6, nor 255 where the receiver is allowed too: in HID++ reports, requests
     * and DJ notifications 0x43 to 0x7F. An empty list (0x41, bit 1 of byte 3) may have any device. */
    BLOTTERFINCH_NO_SUCH_PORT = 5,
    /* Byte 2 of a HID++ report is 0x84 to 0x8E or 0x90 to 0xFE. */
    BLOTTERFINCH_RESERVED_SUB_ID = 6,
    /* The request has neither 3 nor 16 parameters; or byte 2 is neither 0x00 to 0x3F nor 0x80 to 0x83;
     * or it is 0x82 in a short frame, or 0x80, 0x81 or 0x83 in a long one; or it is below 0x40 and the
     * software id, the low half of byte 3, is 0; or byte 2 is 0x00 and byte 3 below 0x10 (GetFeature) and
     * the first two parameters, the feature, are 0. */
    BLOTTERFINCH_FORBIDDEN = 9,
    /* The frame does not fit between offset and the buffer's end, or offset is past the end. */
    BLOTTERFINCH_NO_ROOM = 10,
    /* Bit 6 or 7 of the device bits is set. */
    BLOTTERFINCH_RESERVED_BITS = 14
};

/* One report. Refused: every other field is 0. */
typedef struct blotterfinch_report {
    uint8_t refusal;
    uint8_t id;
    uint8_t device;
    uint8_t byte2;  /* HID++: feature index or sub id. DJ: type */
    uint8_t byte3;  /* HID++: function * 16 + software id, or a register; in an error byte 2 of the
                     * request that failed; in a notice its first value. DJ: first parameter */
    uint8_t start;  /* offset of the first parameter in the report: HID++ 4, DJ 3 */
    uint8_t length; /* all bytes from start to the report's end: HID++ 3 or 16; DJ 12 or 29, padding included */
} blotterfinch_report;

/* One frame. Refused: length is 0. */
typedef struct blotterfinch_written {
    uint8_t refusal;
    size_t length; /* bytes written */
} blotterfinch_written;

/* One mouse payload. Refused: every other field is 0. */
typedef struct blotterfinch_movement {
    uint16_t buttons; /* bit 0 is button 1 */
    int16_t x;        /* -2048 to 2047 */
    int16_t y;        /* -2048 to 2047 */
    int8_t wheel;
    int8_t pan;
    uint8_t refusal;
} blotterfinch_movement;

/* The length of a report or frame by its byte 0, the id: 7, 20, 15 or 32; 0 where there is no such id. A
 * stream of whole reports is cut by it: look at the first byte, take so many bytes, go on after them. Where
 * fewer are left, keep them for the next read. Where there is no such id the stream has lost its place, and
 * nothing in it says where a report begins. A read of a hidraw device gives one whole report. */
static inline size_t blotterfinch_report_length(uint8_t id)
{
    switch (id) {
    case BLOTTERFINCH_HIDPP_SHORT: return 7;
    case BLOTTERFINCH_HIDPP_LONG: return 20;
    case BLOTTERFINCH_DJ_SHORT: return 15;
    case BLOTTERFINCH_DJ_LONG: return 32;
    default: return 0;
    }
}

/* A refusal in words, in English and in lower case; for any other number, 7, 8, 11 to 13 and 15 to 17 among
 * them, that there is no such refusal.
 * The text is a constant: it is not to be freed. */
static inline const char *blotterfinch_refusal_text(uint8_t refusal)
{
    switch (refusal) {
    case BLOTTERFINCH_ACCEPTED: return "accepted";
    case BLOTTERFINCH_EMPTY_REPORT: return "the report has no byte";
    case BLOTTERFINCH_UNKNOWN_ID: return "no such report id";
    case BLOTTERFINCH_WRONG_LENGTH: return "the length is not that of the id, or of a mouse payload";
    case BLOTTERFINCH_DOWN_ONLY: return "a DJ type that only goes to the receiver";
    case BLOTTERFINCH_NO_SUCH_PORT: return "no such port";
    case BLOTTERFINCH_RESERVED_SUB_ID: return "a reserved byte 2";
    case BLOTTERFINCH_FORBIDDEN: return "a request that is not allowed";
    case BLOTTERFINCH_NO_ROOM: return "what is to be written does not fit";
    case BLOTTERFINCH_RESERVED_BITS: return "a reserved device bit";
    default: return "no such refusal";
    }
}

/* Reads one report. The bytes after the payload of a DJ report of type 0x01 to 0x04 or 0x08 are not looked at: where
 * they are not all zero the receiver is faulty, and a console that is to use no such report checks them by itself.
 * Refusals: 1, 2, 3, 4, 5, 6.
 * bytes has bytes_length bytes; the call writes none; a refusal changes nothing. */
blotterfinch_report blotterfinch_read(const uint8_t *bytes, size_t bytes_length);

/* Writes a HID++ request to device 1 to 6 or BLOTTERFINCH_RECEIVER, short with 3 parameters, long with 16;
 * byte2 and byte3 are as in a report. Refusals: 5, 9, 10.
 * parameters has parameters_length bytes; the call writes none; a refusal changes nothing.
 * buffer has buffer_length bytes; the call writes 7 or 20 from offset on; a refusal changes nothing. */
blotterfinch_written blotterfinch_request_frame(uint8_t device, uint8_t byte2, uint8_t byte3,
                                                const uint8_t *parameters, size_t parameters_length,
                                                uint8_t *buffer, size_t buffer_length, size_t offset);

/* Writes a DJ Switch and Keep-Alive command. Bit 0 of device_bits is device 1, bit 5 device 6: a device whose
 * bit is set sends DJ reports from then on, any other plain HID ones. The command is to be repeated within
 * timeout seconds, or the receiver switches all devices back; 0 asks for no repetition. Refusals: 14, 10.
 * buffer has buffer_length bytes; the call writes 15 from offset on; a refusal changes nothing. */
blotterfinch_written blotterfinch_switch_frame(uint8_t device_bits, uint8_t timeout,
                                               uint8_t *buffer, size_t buffer_length, size_t offset);

/* Writes a DJ Get Paired Devices command. Refusals: 10.
 * buffer has buffer_length bytes; the call writes 15 from offset on; a refusal changes nothing. */
blotterfinch_written blotterfinch_get_paired_frame(uint8_t *buffer, size_t buffer_length, size_t offset);

/* Writes a DJ Keyboard LEDs report to device 1 to 6; leds goes out as it is. Refusals: 5, 10.
 * buffer has buffer_length bytes; the call writes 15 from offset on; a refusal changes nothing. */
blotterfinch_written blotterfinch_led_frame(uint8_t device, uint8_t leds,
                                            uint8_t *buffer, size_t buffer_length, size_t offset);

/* Reads the payload of a DJ mouse report (type 0x02): the first 7 bytes at its start, whatever follows them.
 * So for a report r of that type in bytes, BLOTTERFINCH_MOUSE_PAYLOAD and not r.length:
 *     blotterfinch_mouse(bytes + r.start, BLOTTERFINCH_MOUSE_PAYLOAD)
 * Any other length is refused, and a refused movement is all zeros, so look at its refusal. Refusals: 3.
 * payload has payload_length bytes; the call writes none; a refusal changes nothing. */
blotterfinch_movement blotterfinch_mouse(const uint8_t *payload, size_t payload_length);

#ifdef __cplusplus
}
#endif

#endif
