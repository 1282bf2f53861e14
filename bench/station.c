/* Makes the same calls with the library's station and with plain C, for bench/station. With no argument
 * it makes each sequence once, for callgrind to count, and prints a line for each call: the sequence, the one
 * that it is taken from, the number of calls that it has more, the bar, and the call's name. With the argument
 * `time` it prints nanoseconds per call of both; with `compare` it makes random sequences. */
#define _POSIX_C_SOURCE 199309L

#include <stdio.h>
#include <stdlib.h>
#include <string.h>
#include <time.h>

#include "measure.h"

enum { MAX_CALLS = 700, BUFFER = 400, MAX_TEXT = 400 };

struct sequence {
    size_t calls;
    uint8_t bytes[MAX_CALLS * CALL_SIZE];
};

struct outcome {
    uint64_t sum;
    uint8_t buffer[BUFFER];
};

/* Each sequence is made by a function of its own on either side, so that callgrind has a line for each. */
#define SCRIPTS(X) \
    X(setup) X(mouse) X(longmouse) X(refused) X(dirty) X(event) X(request) X(reply) X(error) X(cancel) X(tick) \
    X(errorfirst) X(errorlast) X(errornone) X(replyfirst) X(replylast) X(replynone) \
    X(cancelfirst) X(cancellast) X(cancelnone) X(againfirst) X(againlast) X(roomnone) \
    X(three) X(roomfirst) X(roomlast) X(pings) X(latefirst) X(latelast) X(latenone) \
    X(list) X(serial) X(ping) X(late) X(full) X(store) X(restore)

#define INDEX(name) sequence_##name,
enum { SCRIPTS(INDEX) SEQUENCE_COUNT };

static struct sequence sequences[SEQUENCE_COUNT];

/* The store that `restore` reads. */
static uint8_t text[MAX_TEXT];
static size_t text_length;

#define MAKE(side, measure, name) \
    __attribute__((noinline)) static void side##_makes_##name(struct outcome *outcome) \
    { \
        outcome->sum = measure(sequences[sequence_##name].bytes, sequences[sequence_##name].calls * CALL_SIZE, \
                               text, text_length, outcome->buffer, BUFFER); \
    }
#define MAKE_LIBRARY(name) MAKE(library, blotterfinch_measure, name)
#define MAKE_PLAIN(name) MAKE(plain, plain_measure, name)
SCRIPTS(MAKE_LIBRARY)
SCRIPTS(MAKE_PLAIN)

#define BOTH(name) {#name, library_makes_##name, plain_makes_##name},
static const struct {
    const char *name;
    void (*library)(struct outcome *);
    void (*plain)(struct outcome *);
} made[] = {SCRIPTS(BOTH)};

/* A call's cost is that of its sequence less that of the sequence it was taken from, over the calls more. */
static const struct {
    int sequence, from;
    double bar; /* 0: none */
    const char *name;
} lines[] = {
    {sequence_mouse, sequence_setup, 4, "take: mouse report"},
    {sequence_longmouse, sequence_setup, 0, "take: mouse, long"},
    {sequence_refused, sequence_setup, 0, "take: refused report"},
    {sequence_dirty, sequence_setup, 0, "take: dirty padding"},
    {sequence_event, sequence_setup, 0, "take: event"},
    {sequence_reply, sequence_request, 6, "take: reply"},
    {sequence_error, sequence_request, 0, "take: 0x8F error"},
    {sequence_request, sequence_setup, 6, "request"},
    {sequence_cancel, sequence_request, 0, "cancel"},
    {sequence_tick, sequence_request, 0, "tick"},
    {sequence_list, sequence_setup, 0, "listing"},
    {sequence_serial, sequence_setup, 0, "serial, asked and told"},
    {sequence_ping, sequence_setup, 0, "ping and reply"},
    {sequence_late, sequence_setup, 0, "take: late ping reply"},
    {sequence_store, sequence_full, 0, "write six pads' store"},
    {sequence_restore, sequence_full, 0, "read six pads' store"},
    {sequence_replyfirst, sequence_request, 0, "reply: first place"},
    {sequence_replylast, sequence_request, 0, "reply: last place"},
    {sequence_replynone, sequence_request, 0, "reply: no place"},
    {sequence_latefirst, sequence_pings, 0, "late ping: first place"},
    {sequence_latelast, sequence_pings, 0, "late ping: last place"},
    {sequence_latenone, sequence_pings, 0, "late ping: no place"},
    {sequence_errorfirst, sequence_request, 0, "error: first place"},
    {sequence_errorlast, sequence_request, 0, "error: last place"},
    {sequence_errornone, sequence_request, 0, "error: no place"},
    {sequence_cancelfirst, sequence_request, 0, "cancel: first place"},
    {sequence_cancellast, sequence_request, 0, "cancel: last place"},
    {sequence_cancelnone, sequence_request, 0, "cancel: no place"},
    {sequence_againfirst, sequence_request, 0, "11: first place"},
    {sequence_againlast, sequence_request, 0, "11: last place"},
    {sequence_roomfirst, sequence_setup, 0, "empty: first place"},
    {sequence_roomlast, sequence_three, 0, "empty: last place"},
    {sequence_roomnone, sequence_request, 0, "empty: no place (12)"},
};
enum { LINES = sizeof lines / sizeof lines[0] };

static uint8_t *add(struct sequence *sequence, enum call kind)
{
    uint8_t *call = sequence->bytes + CALL_SIZE * sequence->calls;

    if (sequence->calls++ == MAX_CALLS)
        abort();
    memset(call, 0, CALL_SIZE);
    call[0] = (uint8_t)kind;
    return call;
}

/* A report of its id's length: the head and then zeros. */
static void add_take(struct sequence *sequence, uint8_t id, const uint8_t *rest, size_t length)
{
    uint8_t *call = add(sequence, TAKE);

    call[1] = id == 0x10 ? 7 : id == 0x11 ? 20 : id == 0x20 ? 15 : 32;
    call[CALL_HEAD] = id;
    memcpy(call + CALL_HEAD + 1, rest, length);
}
#define TAKE_REPORT(sequence, id, ...) \
    add_take(sequence, id, (const uint8_t[]){__VA_ARGS__}, sizeof(const uint8_t[]){__VA_ARGS__})

static uint8_t *add_request(struct sequence *sequence, uint8_t device, uint8_t byte2, uint8_t byte3,
                            uint8_t first, uint8_t second)
{
    uint8_t *call = add(sequence, REQUEST);

    call[1] = 3;
    call[2] = device;
    call[3] = byte2;
    call[4] = byte3;
    call[5] = 255;
    call[CALL_HEAD] = first;
    call[CALL_HEAD + 1] = second;
    return call;
}

static void add_cancel(struct sequence *sequence, uint8_t device, uint8_t byte2, uint8_t byte3)
{
    uint8_t *call = add(sequence, CANCEL);

    call[2] = device;
    call[3] = byte2;
    call[4] = byte3;
}

static uint8_t port(int i)
{
    return i < 6 ? (uint8_t)(i + 1) : 0xFF;
}

/* Six paired devices with version, battery and link, and the receiver. */
static void set_up(struct sequence *sequence)
{
    for (int i = 0; i < 6; i++) {
        uint8_t device = port(i);

        TAKE_REPORT(sequence, 0x20, device, 0x41, 0x00, 0x10, 0x20, 0x0E);
        add_request(sequence, device, 0x00, 0x11, 0x00, 0x00);
        TAKE_REPORT(sequence, 0x10, device, 0x00, 0x11, 0x02, 0x00);
        add_request(sequence, device, 0x00, 0x01, 0x10, 0x00);
        TAKE_REPORT(sequence, 0x10, device, 0x00, 0x01, 0x07);
        TAKE_REPORT(sequence, 0x11, device, 0x07, 0x00, 0x32, 0x28, 0x01);
        TAKE_REPORT(sequence, 0x20, device, 0x02, 0x01, 0x00, 0xFF, 0x1F, 0x00, 0x01, 0xFF);
    }
}

/* And their serials. */
static void add_serials(struct sequence *sequence)
{
    for (int i = 0; i < 6; i++) {
        uint8_t parameter = (uint8_t)(0x30 + i);

        add_request(sequence, 0xFF, 0x83, 0xB5, parameter, 0x00);
        TAKE_REPORT(sequence, 0x11, 0xFF, 0x83, 0xB5, parameter, 0xFB, 0x84, 0x1B, (uint8_t)(0x86 + i));
    }
}

/* Keeps what the last call of a sequence, a store, writes: its length is what it adds to the sum. */
static void keep_store(const struct sequence *sequence)
{
    static uint8_t buffer[BUFFER];
    size_t length = sequence->calls * CALL_SIZE;
    uint64_t before = plain_measure(sequence->bytes, length - CALL_SIZE, text, text_length, buffer, BUFFER);
    uint64_t sum = plain_measure(sequence->bytes, length, text, text_length, buffer, BUFFER);

    text_length = (size_t)(sum - before);
    memcpy(text, buffer, text_length);
}

/* Keeps the store of the six devices that every sequence sets up, with their serials. */
static void write_text(void)
{
    static struct sequence sequence;

    sequence.calls = 0;
    set_up(&sequence);
    add_serials(&sequence);
    add(&sequence, STORE);
    keep_store(&sequence);
}

enum { TURNS = 280, PORTS = 7, PLACES = 4, WAITING = PORTS * PLACES };

static void add_waiting(struct sequence *sequence, int i, int place)
{
    add_request(sequence, port(i), (uint8_t)(0x10 + place), 0x21, 0x01, 0x02);
}

static void add_ping(struct sequence *sequence, int i, uint8_t byte3)
{
    add_request(sequence, port(i), 0x00, byte3, 0x00, 0x00)[CALL_HEAD + 2] = 0x5B;
}

/* On each port one search of the places that comes to the first, to the last, or to none of them. Of what is searched
 * for in its three sequences, the first is in place 0, the second in place 3 and the third in no place. */
static void add_searches(void)
{
    static const int sought[] = {0, PLACES - 1, PLACES};

    for (int i = 0; i < PORTS; i++) {
        uint8_t device = port(i);

        for (int j = 0; j < 3; j++) {
            uint8_t byte2 = (uint8_t)(0x10 + sought[j]);

            TAKE_REPORT(&sequences[sequence_replyfirst + j], 0x10, device, byte2, 0x21, 0x05);
            TAKE_REPORT(&sequences[sequence_errorfirst + j], 0x10, device, 0x8F, byte2, 0x21, 0x02);
            add_cancel(&sequences[sequence_cancelfirst + j], device, byte2, 0x21);
            TAKE_REPORT(&sequences[sequence_latefirst + j], 0x10, device, 0x00, (uint8_t)(0x11 + j), 0x02, 0x00, 0x5A);
        }
        add_waiting(&sequences[sequence_againfirst], i, 0);
        add_waiting(&sequences[sequence_againlast], i, PLACES - 1);
        add_waiting(&sequences[sequence_roomfirst], i, 0);
        add_waiting(&sequences[sequence_roomlast], i, PLACES - 1);
        add_waiting(&sequences[sequence_roomnone], i, PLACES);
    }
}

static void write_sequences(void)
{
    for (int i = 0; i < SEQUENCE_COUNT; i++)
        set_up(&sequences[i]);
    for (int i = sequence_full; i <= sequence_restore; i++)
        add_serials(&sequences[i]);
    for (int i = 0; i < TURNS; i++) {
        add(&sequences[sequence_store], STORE);
        add(&sequences[sequence_restore], RESTORE);
        TAKE_REPORT(&sequences[sequence_mouse], 0x20, 0x02, 0x02, 0x01, 0x00, 0xFF, 0x1F, 0x00, 0x01, 0xFF);
        TAKE_REPORT(&sequences[sequence_longmouse], 0x21, 0x02, 0x02, 0x01, 0x00, 0xFF, 0x1F, 0x00, 0x01, 0xFF);
        TAKE_REPORT(&sequences[sequence_refused], 0x20, 0x02, 0x04, 0x01);
        TAKE_REPORT(&sequences[sequence_dirty], 0x20, 0x02, 0x02, 0x01, 0x00, 0xFF, 0x1F, 0x00, 0x01, 0xFF, 0x00, 0x00,
                    0x00, 0x00, 0x01);
        TAKE_REPORT(&sequences[sequence_event], 0x11, 0x02, 0x07, 0x00, 0x32, 0x28, 0x01);
        add(&sequences[sequence_list], LIST);
        add_request(&sequences[sequence_serial], 0xFF, 0x83, 0xB5, 0x31, 0x00);
        TAKE_REPORT(&sequences[sequence_serial], 0x11, 0xFF, 0x83, 0xB5, 0x31, 0xFB, 0x84, 0x1B, 0x86);
        add_ping(&sequences[sequence_ping], 1, 0x11);
        TAKE_REPORT(&sequences[sequence_ping], 0x10, 0x02, 0x00, 0x11, 0x02, 0x00, 0x5B);
        if (i == 0)
            add_ping(&sequences[sequence_late], 1, 0x11);
        else
            TAKE_REPORT(&sequences[sequence_late], 0x10, 0x02, 0x00, 0x11, 0x02, 0x00, 0x5A);
    }
    /* A request in every place of every port, and then what ends it. */
    for (int sequence = sequence_request; sequence <= sequence_roomnone; sequence++)
        for (int i = 0; i < WAITING; i++)
            add_waiting(&sequences[sequence], i / PLACES, i % PLACES);
    for (int i = 0; i < WAITING; i++) {
        uint8_t device = port(i / PLACES), byte2 = (uint8_t)(0x10 + i % PLACES);

        TAKE_REPORT(&sequences[sequence_reply], 0x10, device, byte2, 0x21, 0x05);
        TAKE_REPORT(&sequences[sequence_error], 0x10, device, 0x8F, byte2, 0x21, 0x02);
        add_cancel(&sequences[sequence_cancel], device, byte2, 0x21);
        add(&sequences[sequence_tick], TICK);
    }
    /* All places but the last; and pings in the first and in the last. */
    for (int i = 0; i < PORTS; i++) {
        for (int place = 0; place < PLACES - 1; place++) {
            add_waiting(&sequences[sequence_three], i, place);
            add_waiting(&sequences[sequence_roomlast], i, place);
        }
        for (int sequence = sequence_pings; sequence <= sequence_latenone; sequence++) {
            add_ping(&sequences[sequence], i, 0x11);
            for (int place = 1; place < PLACES - 1; place++)
                add_waiting(&sequences[sequence], i, place);
            add_ping(&sequences[sequence], i, 0x12);
        }
    }
    add_searches();
    for (int i = 0; i < SEQUENCE_COUNT; i++)
        add(&sequences[i], LIST);
}

static void expect_same(const struct outcome *library, const struct outcome *plain, const char *name)
{
    if (library->sum == plain->sum && memcmp(library->buffer, plain->buffer, BUFFER) == 0)
        return;
    printf("%s: the library and plain C differ\n", name);
    exit(1);
}

static void run_both(int sequence)
{
    static struct outcome library, plain;

    made[sequence].library(&library);
    made[sequence].plain(&plain);
    expect_same(&library, &plain, made[sequence].name);
}

static size_t calls_more(int line)
{
    return sequences[lines[line].sequence].calls - sequences[lines[line].from].calls;
}

static void count(void)
{
    for (int i = 0; i < SEQUENCE_COUNT; i++)
        run_both(i);
    for (int i = 0; i < LINES; i++)
        printf("%s %s %zu %g %s\n", made[lines[i].sequence].name, made[lines[i].from].name, calls_more(i),
               lines[i].bar, lines[i].name);
}

static double now(void)
{
    struct timespec t;

    clock_gettime(CLOCK_MONOTONIC, &t);
    return (double)t.tv_sec * 1e9 + (double)t.tv_nsec;
}

/* Nanoseconds of one run. */
static double timed(void (*make)(struct outcome *))
{
    enum { ROUNDS = 50 };
    static struct outcome outcome;
    double start = now();

    for (int i = 0; i < ROUNDS; i++)
        make(&outcome);
    return (now() - start) / ROUNDS;
}

static void keep_least(double *least, double took)
{
    if (*least == 0 || took < *least)
        *least = took;
}

/* The best of many trials, each of which goes through all sequences, so that a slow spell meets all of them. */
static void print_times(void)
{
    enum { TRIALS = 150 };
    double library[SEQUENCE_COUNT] = {0}, plain[SEQUENCE_COUNT] = {0};

    for (int trial = 0; trial < TRIALS; trial++) {
        for (int i = 0; i < SEQUENCE_COUNT; i++) {
            keep_least(&library[i], timed(made[i].library));
            keep_least(&plain[i], timed(made[i].plain));
        }
    }
    for (int i = 0; i < LINES; i++) {
        int sequence = lines[i].sequence, from = lines[i].from;

        printf("%s %.1f %.1f\n", made[sequence].name, (library[sequence] - library[from]) / (double)calls_more(i),
               (plain[sequence] - plain[from]) / (double)calls_more(i));
    }
}

/* Bytes that the rules tell apart come up often. */
static uint8_t likely_byte(void)
{
    static const uint8_t often[] = {0x00, 0x01, 0x02, 0x03, 0x07, 0x0E, 0x10, 0x11, 0x20, 0x21, 0x40,
                                    0x41, 0x42, 0x43, 0x64, 0x65, 0x80, 0x83, 0x84, 0x8F, 0x90, 0xFF};

    return rand() % 4 == 0 ? (uint8_t)rand() : often[(size_t)rand() % sizeof often];
}

static void add_random(struct sequence *sequence)
{
    static const uint8_t ids[] = {0x10, 0x11, 0x20, 0x21}, lengths[] = {7, 20, 15, 32};
    uint8_t *call = add(sequence, (enum call)(rand() % 20 == 0 ? rand() % 5 : rand() % 3));
    int id = rand() % 4;

    for (int i = 2; i < CALL_SIZE; i++)
        call[i] = likely_byte();
    if (rand() % 8 != 0)
        call[5] = (uint8_t)(rand() % 4);
    call[1] = rand() % 16 == 0 ? (uint8_t)rand() : call[0] == TAKE ? lengths[id] : rand() % 2 ? 3 : 16;
    if (call[0] == TAKE && rand() % 16 != 0)
        call[CALL_HEAD] = ids[id];
}

/* A device is paired, or its serial is asked for or told, one of two. */
static void add_random_serial(struct sequence *sequence)
{
    uint8_t device = port(rand() % 6), parameter = (uint8_t)(0x2F + device + (rand() % 16 == 0));

    switch (rand() % 4) {
    case 0:
        TAKE_REPORT(sequence, 0x20, device, 0x41, 0x00, 0x10, 0x20, 0x0E);
        break;
    case 1:
        TAKE_REPORT(sequence, rand() % 16 == 0 ? 0x10 : 0x11, 0xFF, 0x83, 0xB5, parameter, 0x84, (uint8_t)(rand() % 2));
        break;
    default:
        add_request(sequence, 0xFF, 0x83, 0xB5, parameter, 0x00);
        TAKE_REPORT(sequence, 0x11, 0xFF, 0x83, 0xB5, parameter, 0x84, 0x1B, 0x86, (uint8_t)(rand() % 2));
        break;
    }
}

/* A ping, or what may be its reply: on three ports, with two software ids and one of two bytes. */
static void add_random_ping(struct sequence *sequence)
{
    static const uint8_t ports[] = {1, 6, 0xFF};
    uint8_t device = ports[rand() % 3], byte3 = (uint8_t)(0x11 + rand() % 2), byte = (uint8_t)(0x5A + rand() % 2);

    if (rand() % 2 == 0)
        add_request(sequence, device, 0x00, byte3, 0x00, 0x5A)[CALL_HEAD + 2] = byte;
    else
        TAKE_REPORT(sequence, rand() % 2 == 0 ? 0x10 : 0x11, device, 0x00, byte3, (uint8_t)(rand() % 3), 0x00, byte);
}

/* A device is paired, or sends a radio report, short or long, of a type that has padding or of another: as many bytes
 * as a payload has, one more or many, and then zeros, of which one in four reports has one or two that are not. */
static void add_random_radio(struct sequence *sequence)
{
    static const uint8_t types[] = {1, 2, 3, 4, 8, 0, 5, 36}, filled[] = {1, 1, 1, 4, 4, 7, 8, 12};
    uint8_t id = rand() % 2 == 0 ? 0x20 : 0x21, device = port(rand() % 6), type = types[rand() % 8];
    uint8_t rest[31] = {device, type};
    size_t length = id == 0x20 ? 14 : 31, bytes = filled[rand() % 8];

    if (rand() % 4 == 0) {
        TAKE_REPORT(sequence, 0x20, device, 0x41, 0x00, 0x10, 0x20, 0x3F, 0x01);
        return;
    }
    for (size_t i = 0; i < bytes; i++)
        rest[2 + i] = likely_byte();
    for (int dirty = rand() % 8; dirty < 2; dirty++)
        rest[2 + (size_t)rand() % (length - 2)] = 0x80;
    add_take(sequence, id, rest, length);
}

static void add_random_call(struct sequence *sequence)
{
    if (rand() % 40 == 0)
        add(sequence, rand() % 4 == 0 ? RESTORE : STORE);
    switch (rand() % 10) {
    case 0: add_random_serial(sequence); break;
    case 1: add_random_ping(sequence); break;
    case 2: add_random_radio(sequence); break;
    default: add_random(sequence); break;
    }
}

/* Often at the edition or behind the text. */
static size_t place_in_text(void)
{
    switch (rand() % 8) {
    case 0: return text_length;
    case 1: return text_length < 5 ? text_length : 5;
    default: return (size_t)rand() % (text_length + 1);
    }
}

/* Changes a text in one place: it is torn, or a byte is put in, left out or another. Half of them stay. */
static void spoil_text(void)
{
    static const uint8_t often[] = "\t\n\r 0123456789ABCDEFabcf.-pds";
    size_t at = place_in_text();
    uint8_t byte = rand() % 16 == 0 ? (uint8_t)rand() : often[(size_t)rand() % (sizeof often - 1)];

    switch (rand() % 8) {
    case 0: text_length = at; break;
    case 1:
        if (text_length == MAX_TEXT)
            break;
        memmove(text + at + 1, text + at, text_length - at);
        text[at] = byte;
        text_length++;
        break;
    case 2:
        if (at == text_length)
            break;
        text_length--;
        memmove(text + at, text + at + 1, text_length - at);
        break;
    case 3:
        if (at < text_length)
            text[at] = byte;
        break;
    default: break;
    }
}

/* What one random sequence stored is the text that the next one reads, or the store of six devices is, often spoilt. */
static void compare(void)
{
    enum { RANDOM_SCRIPTS = 20000 };
    static struct outcome library, plain;
    static struct sequence sequence;

    srand(1);
    for (int i = 0; i < RANDOM_SCRIPTS; i++) {
        sequence.calls = 0;
        while (sequence.calls < 200)
            add_random_call(&sequence);
        add(&sequence, i % 2 == 0 ? LIST : STORE);
        library.sum = blotterfinch_measure(sequence.bytes, sequence.calls * CALL_SIZE, text, text_length,
                                           library.buffer, BUFFER);
        plain.sum = plain_measure(sequence.bytes, sequence.calls * CALL_SIZE, text, text_length, plain.buffer, BUFFER);
        expect_same(&library, &plain, "random sequence");
        if (rand() % 8 == 0)
            write_text();
        else if (i % 2 == 1)
            keep_store(&sequence);
        spoil_text();
    }
    printf("%d random sequences: the library and plain C give the same\n", RANDOM_SCRIPTS);
}

int main(int argc, char **argv)
{
    write_sequences();
    write_text();
    if (argc == 1)
        count();
    else if (strcmp(argv[1], "time") == 0)
        print_times();
    else
        compare();
    return 0;
}
