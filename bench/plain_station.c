#include "plain_station.h"

#include <string.h>

#include "../tests/c/rules.h"

enum { ERROR_1 = 0x8F, ERROR_2 = 0xFF };
enum { INVALID_SUB_ID = 1 };
enum { MAX_INDEX = 63, MAX_LEVEL = 100 };
enum { BATTERY = 3, WIRELESS_STATUS = 4 };
/* A long register of the receiver, by its name in document 004, and the first parameter that asks for device 1. */
enum { PAIRING_INFORMATION = 0xB5, FIRST_SERIAL = 0x30 };
enum { RADIO_TYPES = 32 };
enum { LONGEST_LISTING = 305, LONGEST_STORE = 295 };

/* 01, refusals 1 to 6. */
static uint8_t report_refusal(const uint8_t *bytes, size_t length)
{
    size_t due;

    if (length == 0)
        return BLOTTERFINCH_EMPTY_REPORT;
    due = report_length(bytes[0]);
    if (due == 0)
        return BLOTTERFINCH_UNKNOWN_ID;
    if (due != length)
        return BLOTTERFINCH_WRONG_LENGTH;
    return is_hidpp(bytes[0]) ? hidpp_refusal(bytes) : dj_refusal(bytes);
}

/* Port 255 is the last. */
static struct plain_port *port_of(struct plain_station *station, uint8_t device)
{
    return &station->ports[device <= PLAIN_DEVICES ? device - 1 : PLAIN_DEVICES];
}

static struct plain_request *waiting(struct plain_port *port, uint8_t byte2, uint8_t byte3)
{
    for (int i = 0; i < PLAIN_PLACES; i++) {
        struct plain_request *place = &port->places[i];

        if (place->ticks != 0 && place->byte2 == byte2 && place->byte3 == byte3)
            return place;
    }
    return NULL;
}

static uint8_t count_waiting(const struct plain_port *port)
{
    uint8_t count = 0;

    for (int i = 0; i < PLAIN_PLACES; i++)
        count += port->places[i].ticks != 0;
    return count;
}

/* The slot of a known feature, or PLAIN_FEATURES. */
static int feature_slot(uint8_t high, uint8_t low)
{
    switch (high << 8 | low) {
    case 0x0001: return 0;
    case 0x0003: return 1;
    case 0x0005: return 2;
    case 0x1000: return BATTERY;
    case 0x1D4B: return WIRELESS_STATUS;
    default: return PLAIN_FEATURES;
    }
}

static bool holds(const struct plain_port *port, int feature, uint8_t index)
{
    return port->features[feature] != 0 && port->features[feature] == index;
}

static void set_version(struct plain_port *port, uint8_t major, uint8_t minor)
{
    port->version_known = true;
    port->major = major;
    port->minor = minor;
}

static void set_battery(struct plain_port *port, const uint8_t *parameters)
{
    if (parameters[0] > MAX_LEVEL || parameters[1] > MAX_LEVEL)
        return;
    port->battery_known = true;
    port->level = parameters[0];
    port->next = parameters[1];
    port->status = parameters[2];
}

static bool is_ping(uint8_t byte2, uint8_t byte3)
{
    return byte2 == 0 && byte3 >> 4 == PING;
}

/* The request is still in its place. */
static void record_reply(struct plain_port *port, const struct plain_request *request,
                        const uint8_t *bytes)
{
    uint8_t function = bytes[3] >> 4;

    if (is_ping(bytes[2], bytes[3])) {
        set_version(port, bytes[4], bytes[5]);
    } else if (bytes[2] == 0 && function == GET_FEATURE) {
        int feature = feature_slot(request->first[0], request->first[1]);

        if (feature < PLAIN_FEATURES)
            port->features[feature] = bytes[4] <= MAX_INDEX ? bytes[4] : 0;
    } else if (function == 0 && holds(port, BATTERY, bytes[2])) {
        set_battery(port, bytes + 4);
    }
}

/* Another device of the same model: all but pairing, WPID and bitfield is forgotten. */
static void replace_device(struct plain_port *port)
{
    uint16_t wpid = port->wpid;
    uint32_t reports = port->reports;

    memset(port, 0, sizeof *port);
    port->paired = true;
    port->wpid = wpid;
    port->reports = reports;
}

/* 02, Ask 1: gives the number of requests dropped. The request is still in its place. */
static uint8_t record_serial(struct plain_station *station, const struct plain_request *request,
                             const uint8_t *bytes)
{
    uint8_t first = bytes[4], dropped = 0;
    struct plain_port *port;
    uint32_t serial;

    if (bytes[2] != GET_LONG_REGISTER || bytes[3] != PAIRING_INFORMATION)
        return 0;
    if (bytes[0] != HIDPP_LONG || bytes[1] != RECEIVER || request->first[0] != first)
        return 0;
    if (first < FIRST_SERIAL || first >= FIRST_SERIAL + PLAIN_DEVICES)
        return 0;
    port = &station->ports[first - FIRST_SERIAL];
    if (!port->paired)
        return 0;
    serial = (uint32_t)bytes[5] << 24 | (uint32_t)bytes[6] << 16 | (uint32_t)bytes[7] << 8 | bytes[8];
    if (port->serial_known && port->serial != serial) {
        dropped = count_waiting(port);
        replace_device(port);
    }
    port->serial_known = true;
    port->serial = serial;
    return dropped;
}

static void record_event(struct plain_port *port, const uint8_t *bytes)
{
    if (bytes[3] != 0)
        return;
    if (holds(port, BATTERY, bytes[2]))
        set_battery(port, bytes + 4);
    if (holds(port, WIRELESS_STATUS, bytes[2]))
        port->up = true;
}

static void end_request(struct plain_request *request)
{
    memset(request, 0, sizeof *request);
}

static enum plain_kind take_error(struct plain_port *port, const uint8_t *bytes,
                                  struct plain_answer *answer)
{
    struct plain_request *request = NULL;

    if (bytes[2] == ERROR_1 || bytes[3] < FEATURE_INDEX_END)
        request = waiting(port, bytes[3], bytes[4]);
    if (request == NULL)
        return PLAIN_STRAY;
    end_request(request);
    if (bytes[2] == ERROR_1 && bytes[5] == INVALID_SUB_ID && is_ping(bytes[3], bytes[4]))
        set_version(port, 1, 0);
    answer->byte2 = bytes[3];
    answer->byte3 = bytes[4];
    answer->code = bytes[5];
    answer->error = bytes[2];
    return PLAIN_FAILED;
}

static enum plain_kind take_hidpp(struct plain_station *station, const uint8_t *bytes,
                                  struct plain_answer *answer)
{
    struct plain_port *port = port_of(station, bytes[1]);
    struct plain_request *request;

    if (bytes[2] == ERROR_1 || bytes[2] == ERROR_2)
        return take_error(port, bytes, answer);
    request = waiting(port, bytes[2], bytes[3]);
    if (request != NULL) {
        /* 02, Ask 2: a device repeats the third parameter of the ping that it answers. */
        if (is_ping(bytes[2], bytes[3]) && bytes[6] != request->first[2])
            return PLAIN_STRAY;
        record_reply(port, request, bytes);
        answer->dropped = record_serial(station, request, bytes);
        end_request(request);
        return PLAIN_REPLY;
    }
    if (bytes[2] >= SET_REGISTER)
        return PLAIN_STRAY;
    if (bytes[2] >= FEATURE_INDEX_END)
        return PLAIN_PLAIN;
    if (port->version_known && port->major == 1)
        return PLAIN_PLAIN;
    if ((bytes[3] & 0x0F) != 0)
        return PLAIN_STRAY;
    record_event(port, bytes);
    return PLAIN_EVENT;
}

static void refuse(struct plain_answer *answer, uint8_t refusal)
{
    answer->kind = PLAIN_REFUSED;
    answer->refusal = refusal;
}

static const uint8_t payload_lengths[RADIO_TYPES] = {[1] = 7, [2] = 7, [3] = 4, [4] = 1, [8] = 1, [14] = 1};

static void take_radio(struct plain_port *port, const uint8_t *bytes, size_t length,
                       struct plain_answer *answer)
{
    uint8_t type = bytes[2];
    size_t payload;

    if (!port->paired) {
        refuse(answer, PLAIN_NOT_PAIRED);
        return;
    }
    if (type >= RADIO_TYPES || (port->reports >> type & 1) == 0) {
        refuse(answer, PLAIN_NOT_DECLARED);
        return;
    }
    payload = payload_lengths[type] != 0 ? payload_lengths[type] : length - DJ_PARAMETERS;
    /* 02, Ask 5: zeros after the payload, to the end of the report. */
    for (size_t i = DJ_PARAMETERS + payload; i < length; i++) {
        if (bytes[i] != 0) {
            refuse(answer, PLAIN_DIRTY_PADDING);
            return;
        }
    }
    port->up = true;
    answer->kind = PLAIN_RADIO;
    answer->type = type;
    answer->start = DJ_PARAMETERS;
    answer->length = (uint8_t)payload;
}

static void take_paired(struct plain_port *port, const uint8_t *bytes, struct plain_answer *answer)
{
    uint16_t wpid = (uint16_t)(bytes[4] | bytes[5] << 8);
    uint32_t reports = bytes[6] | (uint32_t)bytes[7] << 8 | (uint32_t)bytes[8] << 16 | (uint32_t)bytes[9] << 24;

    answer->kind = PLAIN_PAIRED;
    answer->dropped = 0;
    if (!port->paired || port->wpid != wpid) {
        answer->dropped = count_waiting(port);
        memset(port, 0, sizeof *port);
        port->paired = true;
        port->wpid = wpid;
    }
    port->reports = reports;
    answer->more = bytes[3] & 1;
    answer->wpid = wpid;
    answer->reports = reports;
}

static void take_notification(struct plain_port *port, const uint8_t *bytes,
                              struct plain_answer *answer)
{
    switch (bytes[2]) {
    case DEVICE_UNPAIRED:
        answer->kind = PLAIN_UNPAIRED;
        answer->dropped = count_waiting(port);
        memset(port, 0, sizeof *port);
        break;
    case DEVICE_PAIRED:
        take_paired(port, bytes, answer);
        break;
    case CONNECTION_STATUS:
        if (!port->paired) {
            refuse(answer, PLAIN_NOT_PAIRED);
            break;
        }
        answer->kind = PLAIN_LINK;
        answer->up = port->up = (bytes[3] & 1) == 0;
        break;
    default:
        answer->kind = PLAIN_OTHER;
        answer->type = bytes[2];
        break;
    }
}

void plain_fresh(struct plain_station *station)
{
    memset(station, 0, sizeof *station);
}

void plain_take(struct plain_station *station, const uint8_t *bytes, size_t length,
                struct plain_answer *answer)
{
    uint8_t refusal = report_refusal(bytes, length);

    if (refusal != BLOTTERFINCH_ACCEPTED) {
        refuse(answer, refusal);
        return;
    }
    answer->port = bytes[1];
    if (is_hidpp(bytes[0])) {
        answer->byte2 = bytes[2];
        answer->byte3 = bytes[3];
        answer->start = HIDPP_PARAMETERS;
        answer->length = (uint8_t)(length - HIDPP_PARAMETERS);
        answer->kind = take_hidpp(station, bytes, answer);
    } else if (bytes[2] < DEVICE_UNPAIRED) {
        take_radio(port_of(station, bytes[1]), bytes, length, answer);
    } else if (bytes[2] == DEVICE_PAIRED && (bytes[3] & PAIRED_EMPTY) != 0) {
        answer->kind = PLAIN_EMPTY_LIST;
    } else {
        take_notification(port_of(station, bytes[1]), bytes, answer);
    }
}

static struct plain_request *empty_place(struct plain_port *port)
{
    for (int i = 0; i < PLAIN_PLACES; i++)
        if (port->places[i].ticks == 0)
            return &port->places[i];
    return NULL;
}

uint8_t plain_request(struct plain_station *station, uint8_t device, uint8_t byte2, uint8_t byte3,
                      uint16_t ticks, const uint8_t *parameters, size_t parameters_length,
                      uint8_t *buffer, size_t buffer_length, size_t offset, size_t *written)
{
    struct plain_port *port;
    struct plain_request *request;
    size_t length = HIDPP_PARAMETERS + parameters_length;

    if (!is_port(device))
        return BLOTTERFINCH_NO_SUCH_PORT;
    if (ticks < 1 || ticks > 255 || is_forbidden(byte2, byte3, parameters, parameters_length))
        return BLOTTERFINCH_FORBIDDEN;
    if (!fits(length, buffer_length, offset))
        return BLOTTERFINCH_NO_ROOM;
    port = port_of(station, device);
    if (waiting(port, byte2, byte3) != NULL)
        return PLAIN_ALREADY_WAITING;
    request = empty_place(port);
    if (request == NULL)
        return PLAIN_PLACES_FULL;

    request->byte2 = byte2;
    request->byte3 = byte3;
    memcpy(request->first, parameters, sizeof request->first);
    request->ticks = (uint8_t)ticks;

    buffer += offset;
    buffer[0] = length == HIDPP_SHORT_LENGTH ? HIDPP_SHORT : HIDPP_LONG;
    buffer[1] = device;
    buffer[2] = byte2;
    buffer[3] = byte3;
    memcpy(buffer + HIDPP_PARAMETERS, parameters, parameters_length);
    *written = length;
    return BLOTTERFINCH_ACCEPTED;
}

uint8_t plain_cancel(struct plain_station *station, uint8_t device, uint8_t byte2, uint8_t byte3)
{
    struct plain_request *request;

    if (!is_port(device))
        return BLOTTERFINCH_NO_SUCH_PORT;
    request = waiting(port_of(station, device), byte2, byte3);
    if (request == NULL)
        return PLAIN_NOT_WAITING;
    end_request(request);
    return BLOTTERFINCH_ACCEPTED;
}

void plain_tick(struct plain_station *station, uint8_t ended[PLAIN_PORTS])
{
    for (int i = 0; i < PLAIN_PORTS; i++) {
        ended[i] = 0;
        for (int j = 0; j < PLAIN_PLACES; j++) {
            struct plain_request *request = &station->ports[i].places[j];

            if (request->ticks > 1) {
                request->ticks--;
            } else if (request->ticks == 1) {
                end_request(request);
                ended[i]++;
            }
        }
    }
}

static char *put_text(char *at, const char *text)
{
    size_t length = strlen(text);

    memcpy(at, text, length);
    return at + length;
}

static char *put_hex(char *at, int digits, uint32_t number)
{
    for (int i = digits - 1; i >= 0; i--) {
        at[i] = "0123456789ABCDEF"[number & 0x0F];
        number >>= 4;
    }
    return at + digits;
}

static char *put_decimal(char *at, uint8_t number)
{
    if (number >= 100)
        *at++ = (char)('0' + number / 100);
    if (number >= 10)
        *at++ = (char)('0' + number / 10 % 10);
    *at++ = (char)('0' + number % 10);
    return at;
}

static char *put_version(char *at, const struct plain_port *port)
{
    if (port->version_known) {
        at = put_decimal(at, port->major);
        *at++ = '.';
        return put_decimal(at, port->minor);
    }
    *at++ = '-';
    return at;
}

static char *put_line(char *at, int device, const struct plain_port *port)
{
    at = put_decimal(at, (uint8_t)device);
    *at++ = '\t';
    at = put_hex(at, 4, port->wpid);
    *at++ = '\t';
    at = put_hex(at, 8, port->reports);
    at = put_text(at, port->up ? "\tup\t" : "\tdown\t");
    at = put_version(at, port);
    *at++ = '\t';
    if (port->battery_known) {
        at = put_decimal(at, port->level);
        *at++ = ',';
        at = put_decimal(at, port->next);
        *at++ = ',';
        at = put_decimal(at, port->status);
    } else {
        *at++ = '-';
    }
    *at++ = '\t';
    at = put_decimal(at, count_waiting(port));
    *at++ = '\n';
    return at;
}

uint8_t plain_list(const struct plain_station *station, uint8_t *buffer, size_t buffer_length,
                   size_t offset, size_t *written)
{
    char text[LONGEST_LISTING];
    char *at = put_text(text, "port\twpid\treports\tlink\tversion\tbattery\twaiting\n");
    size_t length;

    for (int i = 0; i < PLAIN_DEVICES; i++)
        if (station->ports[i].paired)
            at = put_line(at, i + 1, &station->ports[i]);
    length = (size_t)(at - text);
    if (!fits(length, buffer_length, offset))
        return BLOTTERFINCH_NO_ROOM;
    memcpy(buffer + offset, text, length);
    *written = length;
    return BLOTTERFINCH_ACCEPTED;
}

static char *put_pad(char *at, int device, const struct plain_port *port)
{
    *at++ = (char)('0' + device);
    *at++ = '\t';
    at = put_hex(at, 4, port->wpid);
    *at++ = '\t';
    if (port->serial_known)
        at = put_hex(at, 8, port->serial);
    else
        *at++ = '-';
    *at++ = '\t';
    at = put_hex(at, 8, port->reports);
    *at++ = '\t';
    at = put_version(at, port);
    for (int i = 0; i < PLAIN_FEATURES; i++) {
        *at++ = '\t';
        at = put_decimal(at, port->features[i]);
    }
    *at++ = '\n';
    return at;
}

uint8_t plain_store(const struct plain_station *station, uint8_t *buffer, size_t buffer_length,
                    size_t offset, size_t *written)
{
    char text[LONGEST_STORE];
    char *at = put_text(text, "pads\t1\n");
    size_t length;

    for (int i = 0; i < PLAIN_DEVICES; i++)
        if (station->ports[i].paired)
            at = put_pad(at, i + 1, &station->ports[i]);
    length = (size_t)(at - text);
    if (!fits(length, buffer_length, offset))
        return BLOTTERFINCH_NO_ROOM;
    memcpy(buffer + offset, text, length);
    *written = length;
    return BLOTTERFINCH_ACCEPTED;
}

/* What is left of a text that is read once, from its front to its end. */
struct text {
    const uint8_t *at, *end;
};

static bool is_digit(uint8_t byte)
{
    return byte >= '0' && byte <= '9';
}

static bool read_byte(struct text *text, uint8_t byte)
{
    if (text->at == text->end || *text->at != byte)
        return false;
    text->at++;
    return true;
}

static bool read_hex(struct text *text, int digits, uint32_t *number)
{
    *number = 0;
    for (int i = 0; i < digits; i++) {
        uint8_t byte = text->at == text->end ? 0 : *text->at++;

        if (is_digit(byte))
            *number = *number << 4 | (uint32_t)(byte - '0');
        else if (byte >= 'A' && byte <= 'F')
            *number = *number << 4 | (uint32_t)(byte - 'A' + 10);
        else
            return false;
    }
    return true;
}

/* No number has more digits than it needs: after a 0 none is read. */
static bool read_decimal(struct text *text, unsigned most, uint8_t *number)
{
    unsigned sum = 0;
    const uint8_t *start = text->at;

    while (text->at != text->end && is_digit(*text->at)) {
        if (text->at != start && sum == 0)
            return false;
        sum = 10 * sum + (unsigned)(*text->at++ - '0');
        if (sum > most)
            return false;
    }
    *number = (uint8_t)sum;
    return text->at != start;
}

static bool read_version(struct text *text, struct plain_port *port)
{
    if (read_byte(text, '-'))
        return true;
    port->version_known = true;
    return read_decimal(text, 255, &port->major) && read_byte(text, '.') && read_decimal(text, 255, &port->minor);
}

/* A line of a device above the last one, which it becomes. */
static bool read_pad(struct text *text, struct plain_station *station, uint8_t *last)
{
    struct plain_port *port;
    uint32_t wpid;
    uint8_t device;

    if (!read_decimal(text, PLAIN_DEVICES, &device) || device <= *last || !read_byte(text, '\t'))
        return false;
    *last = device;
    port = &station->ports[device - 1];
    port->paired = true;
    if (!read_hex(text, 4, &wpid) || !read_byte(text, '\t'))
        return false;
    port->wpid = (uint16_t)wpid;
    port->serial_known = !read_byte(text, '-');
    if (port->serial_known && !read_hex(text, 8, &port->serial))
        return false;
    if (!read_byte(text, '\t') || !read_hex(text, 8, &port->reports) || !read_byte(text, '\t') ||
        !read_version(text, port))
        return false;
    for (int i = 0; i < PLAIN_FEATURES; i++)
        if (!read_byte(text, '\t') || !read_decimal(text, MAX_INDEX, &port->features[i]))
            return false;
    return read_byte(text, '\n');
}

/* The first line: the edition may have any number of digits. */
static uint8_t read_edition(struct text *text)
{
    const uint8_t *number;
    size_t digits;

    for (const char *name = "pads\t"; *name != 0; name++)
        if (!read_byte(text, (uint8_t)*name))
            return PLAIN_BROKEN_LINE;
    number = text->at;
    while (text->at != text->end && is_digit(*text->at))
        text->at++;
    digits = (size_t)(text->at - number);
    if (digits == 0 || (digits > 1 && *number == '0') || !read_byte(text, '\n'))
        return PLAIN_BROKEN_LINE;
    return digits == 1 && *number == '1' ? BLOTTERFINCH_ACCEPTED : PLAIN_OTHER_EDITION;
}

uint8_t plain_restore(struct plain_station *station, const uint8_t *text, size_t length, uint8_t *line)
{
    struct plain_station next;
    struct text left = {text, text + length};
    uint8_t last = 0;
    uint8_t refusal = read_edition(&left);

    *line = 1;
    if (refusal != BLOTTERFINCH_ACCEPTED)
        return refusal;
    plain_fresh(&next);
    while (left.at != left.end) {
        ++*line;
        if (!read_pad(&left, &next, &last))
            return PLAIN_BROKEN_LINE;
    }
    *station = next;
    return BLOTTERFINCH_ACCEPTED;
}
