#include "compare.h"

#include <stdbool.h>
#include <stdio.h>
#include <stdlib.h>
#include <string.h>

#include "plain.h"
#include "support.h"

enum { SHORT_PARAMETERS = 3, LONG_PARAMETERS = 16, HIDPP_HEADER = 4, DJ_FRAME = 15 };
enum { CANARY = 32, BUFFER_MAX = 768, AREA = CANARY + BUFFER_MAX + CANARY };

/* One call, with the arguments of all four writers. */
struct call {
    enum function function;
    uint8_t device, byte2, byte3;
    uint8_t device_bits, timeout;
    uint8_t leds;
    const uint8_t *parameters;
    size_t parameters_length;
    bool null_buffer;
    size_t buffer_length;
    size_t offset;
};

struct writers {
    blotterfinch_written (*request_frame)(uint8_t, uint8_t, uint8_t, const uint8_t *, size_t, uint8_t *,
                                          size_t, size_t);
    blotterfinch_written (*switch_frame)(uint8_t, uint8_t, uint8_t *, size_t, size_t);
    blotterfinch_written (*get_paired_frame)(uint8_t *, size_t, size_t);
    blotterfinch_written (*led_frame)(uint8_t, uint8_t, uint8_t *, size_t, size_t);
};

static const struct writers library_writers = {
    blotterfinch_request_frame,
    blotterfinch_switch_frame,
    blotterfinch_get_paired_frame,
    blotterfinch_led_frame,
};

static const struct writers plain_writers = {
    plain_request_frame,
    plain_switch_frame,
    plain_get_paired_frame,
    plain_led_frame,
};

/* The call's buffer lies in the area between two canaries. */
static blotterfinch_written make(const struct writers *by, const struct call *c,
                                 const uint8_t *parameters, uint8_t *area)
{
    uint8_t *buffer = c->null_buffer ? NULL : area + CANARY;

    switch (c->function) {
    case REQUEST:
        return by->request_frame(c->device, c->byte2, c->byte3, parameters, c->parameters_length, buffer,
                                 c->buffer_length, c->offset);
    case SWITCH:
        return by->switch_frame(c->device_bits, c->timeout, buffer, c->buffer_length, c->offset);
    case GET_PAIRED:
        return by->get_paired_frame(buffer, c->buffer_length, c->offset);
    case LED:
        return by->led_frame(c->device, c->leds, buffer, c->buffer_length, c->offset);
    default:
        abort();
    }
}

static void print_call(const struct call *c)
{
    static const char *const names[FUNCTIONS] = {
        [REQUEST] = "request", [SWITCH] = "switch", [GET_PAIRED] = "get paired", [LED] = "LED"};

    printf("%s: difference for device=%02X byte2=%02X byte3=%02X device_bits=%02X timeout=%02X leds=%02X "
           "buffer_length=%zu%s offset=%zu\n",
           names[c->function], c->device, c->byte2, c->byte3, c->device_bits, c->timeout, c->leds,
           c->buffer_length, c->null_buffer ? " (NULL)" : "", c->offset);
    print_bytes("parameters", c->parameters, c->parameters_length);
}

/* Whether nothing changed but the frame, and nothing at all by a refusal. */
static bool kept_the_rest(const struct call *c, blotterfinch_written written, const uint8_t *before,
                          const uint8_t *after)
{
    size_t area = CANARY + c->buffer_length + CANARY;
    size_t end;

    if (written.refusal != BLOTTERFINCH_ACCEPTED)
        return memcmp(before, after, area) == 0;
    if (c->offset > c->buffer_length || written.length > c->buffer_length - c->offset)
        return false;
    end = CANARY + c->offset + written.length;
    return memcmp(before, after, CANARY + c->offset) == 0 &&
           memcmp(before + end, after + end, area - end) == 0;
}

static void compare(const struct call *c)
{
    static uint8_t before[AREA], by_library[AREA], by_plain[AREA];
    size_t area = CANARY + c->buffer_length + CANARY;
    const uint8_t *lent = lend(c->parameters, c->parameters_length);
    blotterfinch_written library, plain;

    fill(before, area);
    memcpy(by_library, before, area);
    memcpy(by_plain, before, area);
    library = make(&library_writers, c, lent, by_library);
    plain = make(&plain_writers, c, c->parameters, by_plain);

    if (library.refusal != plain.refusal || library.length != plain.length ||
        memcmp(by_library, by_plain, area) != 0 || !kept_the_rest(c, library, before, by_library) ||
        was_written(lent, c->parameters, c->parameters_length)) {
        print_call(c);
        printf("library: refusal=%d length=%zu\n", library.refusal, library.length);
        printf("plain: refusal=%d length=%zu\n", plain.refusal, plain.length);
        printf("areas, with %d bytes before and after the buffer:\n", CANARY);
        print_bytes("before", before, area);
        print_bytes("library", by_library, area);
        print_bytes("plain", by_plain, area);
        print_bytes("parameters after the library's call", lent, c->parameters_length);
        exit(1);
    }
    count(c->function, plain.refusal, plain.length);
}

static uint8_t any_port(void)
{
    size_t device = 1 + below(7);

    return device == 7 ? 255 : (uint8_t)device;
}

/* Every argument at random, with a buffer that any frame fits in. */
static struct call roomy(enum function function, const uint8_t *parameters, size_t parameters_length)
{
    struct call c = {.function = function};

    c.parameters = parameters;
    c.parameters_length = parameters_length;
    c.device = any_port();
    c.byte2 = any_byte2();
    c.byte3 = any_byte();
    c.device_bits = any_byte();
    c.timeout = any_byte();
    c.leds = any_byte();
    c.buffer_length = 64;
    c.offset = below(c.buffer_length - (HIDPP_HEADER + LONG_PARAMETERS) + 1);
    return c;
}

/* Every byte 2 and byte 3, both forms, either of the first parameters 0 or not. */
static void every_request(void)
{
    for (unsigned i = 0; i < 1u << 19; i++) {
        uint8_t parameters[LONG_PARAMETERS];
        bool is_long = i >> 18 & 1;
        struct call c = roomy(REQUEST, parameters, is_long ? LONG_PARAMETERS : SHORT_PARAMETERS);

        c.byte2 = (uint8_t)i;
        c.byte3 = (uint8_t)(i >> 8);
        fill(parameters, sizeof parameters);
        parameters[0] = i >> 16 & 1 ? parameters[0] | 1 : 0;
        parameters[1] = i >> 17 & 1 ? parameters[1] | 1 : 0;
        compare(&c);
    }
}

/* Every pair of the two bytes that the other frames are made of, and every device with every byte 2. */
static void every_pair(void)
{
    for (unsigned i = 0; i < 1u << 16; i++) {
        uint8_t low = (uint8_t)i, high = (uint8_t)(i >> 8);
        uint8_t parameters[LONG_PARAMETERS];
        struct call request = roomy(REQUEST, parameters, below(2) ? LONG_PARAMETERS : SHORT_PARAMETERS);
        struct call switch_dj = roomy(SWITCH, NULL, 0);
        struct call led = roomy(LED, NULL, 0);

        fill(parameters, sizeof parameters);
        request.device = low;
        request.byte2 = high;
        compare(&request);
        switch_dj.device_bits = low;
        switch_dj.timeout = high;
        compare(&switch_dj);
        led.device = low;
        led.leds = high;
        compare(&led);
    }
}

static size_t any_buffer_length(size_t frame_length)
{
    switch (below(8)) {
    case 0: return 0;
    case 1: return frame_length;
    case 2: return frame_length - 1;
    case 3: return 256 + below(BUFFER_MAX - 256 + 1);
    default: return below(65);
    }
}

static size_t any_offset(size_t buffer_length, size_t frame_length)
{
    size_t last = buffer_length < frame_length ? 0 : buffer_length - frame_length;
    size_t small = below(64);

    switch (below(16)) {
    case 0: return buffer_length;
    case 1: return buffer_length + 1;
    case 2: return buffer_length + 1 + small;
    case 3: return SIZE_MAX - small;
    case 4: return SIZE_MAX - frame_length + 1 + small; /* the frame's end wraps round to small */
    case 5: return SIZE_MAX / 2 + small;
    case 6: return ((size_t)1 << 32) + small;           /* right in the low 32 bits only */
    case 7: return 256 + small;
    case 8: return last + 1;
    case 9: case 10: return last;
    default: return below(last + 1);
    }
}

static size_t any_parameters_length(void)
{
    size_t right = below(2) ? LONG_PARAMETERS : SHORT_PARAMETERS;

    switch (below(256)) {
    case 0: return wraps[below(WRAPS)] + right;
    case 1: case 2: case 3: case 4: case 5: case 6: case 7: case 8: return 0;
    default: return below(8) == 0 ? below(40) : right;
    }
}

/* Byte 2 of a request is in range, the software id 0, or the first parameters 0, often enough for
 * each of the rules of Number 9 to decide alone. */
static void any_request(struct call *c, uint8_t *parameters)
{
    fill(parameters, c->parameters_length);
    memset(parameters, 0, below(4));
    if (below(4) != 0)
        c->byte2 = (uint8_t)(below(2) ? below(0x40) : 0x80 + below(4));
    if (below(4) == 0)
        c->byte2 = 0;
    if (below(4) == 0)
        c->byte3 &= 0xF0;
    if (below(2) == 0)
        c->byte3 &= 0x0F;
}

static void any_call(enum function function)
{
    static uint8_t parameters[LENT_MAX];
    struct call c = roomy(function, NULL, 0);
    size_t frame_length = DJ_FRAME;

    if (below(4) == 0)
        c.device = any_device();
    if (below(2) == 0)
        c.device_bits &= 0x3F;
    if (function == REQUEST) {
        c.parameters_length = any_parameters_length();
        c.parameters = c.parameters_length == 0 && below(2) ? NULL : parameters;
        any_request(&c, parameters);
        frame_length = HIDPP_HEADER + (c.parameters_length <= LONG_PARAMETERS ? c.parameters_length : 0);
    }
    c.buffer_length = any_buffer_length(frame_length);
    c.null_buffer = c.buffer_length == 0 && below(2);
    c.offset = any_offset(c.buffer_length, frame_length);
    compare(&c);
}

void compare_writing(void)
{
    every_request();
    every_pair();
    for (int i = 0; i < 400000; i++) {
        any_call(REQUEST);
        any_call(SWITCH);
        any_call(GET_PAIRED);
        any_call(LED);
    }
}
