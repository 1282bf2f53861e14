/* The station of documents 01 and 02 in plain C, changed in place, to compare the library's cost with. It shares
 * the header's refusal numbers, and nothing else, with the library. */
#ifndef PLAIN_STATION_H
#define PLAIN_STATION_H

#include <stdbool.h>
#include <stddef.h>
#include <stdint.h>

enum { PLAIN_PORTS = 7, PLAIN_DEVICES = 6, PLAIN_PLACES = 4, PLAIN_FEATURES = 5 };

/* Refusals that need a station; the others are in blotterfinch.h. */
enum {
    PLAIN_NOT_PAIRED = 7,
    PLAIN_NOT_DECLARED = 8,
    PLAIN_ALREADY_WAITING = 11,
    PLAIN_PLACES_FULL = 12,
    PLAIN_NOT_WAITING = 13,
    PLAIN_OTHER_EDITION = 15,
    PLAIN_BROKEN_LINE = 16,
    PLAIN_DIRTY_PADDING = 17
};

/* One pending request. The place is empty where no ticks are left. */
struct plain_request {
    uint8_t byte2, byte3;
    uint8_t first[3];
    uint8_t ticks;
};

struct plain_port {
    uint32_t reports;
    uint32_t serial;
    uint16_t wpid;
    bool paired, up;
    bool version_known, battery_known, serial_known;
    uint8_t major, minor;
    uint8_t level, next, status;
    uint8_t features[PLAIN_FEATURES];
    struct plain_request places[PLAIN_PLACES];
};

/* Devices 1 to 6, and then the receiver. */
struct plain_station {
    struct plain_port ports[PLAIN_PORTS];
};

enum plain_kind {
    PLAIN_REFUSED,
    PLAIN_REPLY,
    PLAIN_STRAY,
    PLAIN_PLAIN,
    PLAIN_EVENT,
    PLAIN_FAILED,
    PLAIN_RADIO,
    PLAIN_UNPAIRED,
    PLAIN_PAIRED,
    PLAIN_EMPTY_LIST,
    PLAIN_LINK,
    PLAIN_OTHER
};

/* What a take answers; only the fields that its kind has are set. */
struct plain_answer {
    enum plain_kind kind;
    uint8_t refusal;
    uint8_t port, byte2, byte3, start, length;
    uint8_t code, error; /* failed: error is 0x8F or 0xFF */
    uint8_t type;        /* radio, other */
    uint8_t dropped;     /* reply, unpaired, paired */
    bool more, up;       /* paired; link */
    uint16_t wpid;       /* paired */
    uint32_t reports;    /* paired */
};

/* Everything unpaired, link down, unknown, 0 or empty. */
void plain_fresh(struct plain_station *station);

void plain_take(struct plain_station *station, const uint8_t *bytes, size_t length,
                struct plain_answer *answer);

/* Gives the refusal, or 0 and the number of bytes written. */
uint8_t plain_request(struct plain_station *station, uint8_t device, uint8_t byte2, uint8_t byte3,
                      uint16_t ticks, const uint8_t *parameters, size_t parameters_length,
                      uint8_t *buffer, size_t buffer_length, size_t offset, size_t *written);

/* Gives the refusal, or 0. */
uint8_t plain_cancel(struct plain_station *station, uint8_t device, uint8_t byte2, uint8_t byte3);

void plain_tick(struct plain_station *station, uint8_t ended[PLAIN_PORTS]);

/* Gives the refusal, or 0 and the number of bytes written. */
uint8_t plain_list(const struct plain_station *station, uint8_t *buffer, size_t buffer_length,
                   size_t offset, size_t *written);

/* Gives the refusal, or 0 and the number of bytes written. */
uint8_t plain_store(const struct plain_station *station, uint8_t *buffer, size_t buffer_length,
                    size_t offset, size_t *written);

/* Gives the refusal, or 0; of PLAIN_BROKEN_LINE the number of the line, too. */
uint8_t plain_restore(struct plain_station *station, const uint8_t *text, size_t length, uint8_t *line);

#endif
