/* Makes the runs in a file that `oracle encoded-random` wrote, and writes what each leaves: the refusal, the length of
 * the rows, the arena and the answers. Every buffer is as long as it is said to be, for the sanitizers to watch. */
#include <stdio.h>
#include <stdlib.h>
#include <string.h>

#include "encoded.h"

enum { UNTOUCHED = 0xEE };

static void fail(const char *what)
{
    fprintf(stderr, "make: %s\n", what);
    exit(1);
}

static uint8_t *buffer(size_t length)
{
    uint8_t *bytes = malloc(length > 0 ? length : 1);

    if (bytes == NULL)
        fail("no memory");
    return bytes;
}

static void get(FILE *file, uint8_t *bytes, size_t length)
{
    if (fread(bytes, 1, length, file) != length)
        fail("the file is cut");
}

static size_t get_length(FILE *file)
{
    uint8_t bytes[4];

    get(file, bytes, sizeof bytes);
    return bytes[0] | (size_t)bytes[1] << 8 | (size_t)bytes[2] << 16 | (size_t)bytes[3] << 24;
}

static void put(const uint8_t *bytes, size_t length)
{
    if (fwrite(bytes, 1, length, stdout) != length)
        fail("the answers cannot be written");
}

static void make_run(FILE *file)
{
    size_t encoded_length = get_length(file), arena_length = get_length(file), answers_length = get_length(file);
    uint8_t *encoded = buffer(encoded_length), *arena = buffer(arena_length), *answers = buffer(answers_length);
    uint8_t head[5];
    blotterfinch_ran ran;

    get(file, encoded, encoded_length);
    get(file, arena, arena_length);
    memset(answers, UNTOUCHED, answers_length);
    ran = blotterfinch_run_encoded(encoded, encoded_length, arena, arena_length, answers, answers_length);

    head[0] = ran.refusal;
    for (int i = 0; i < 4; i++)
        head[i + 1] = (uint8_t)(ran.length >> 8 * i);
    put(head, sizeof head);
    put(arena, arena_length);
    put(answers, answers_length);
    free(encoded);
    free(arena);
    free(answers);
}

int main(int argc, char **argv)
{
    FILE *file = argc == 2 ? fopen(argv[1], "rb") : NULL;
    int next;

    if (file == NULL)
        fail("no file of runs");
    while ((next = getc(file)) != EOF) {
        ungetc(next, file);
        make_run(file);
    }
    return fflush(stdout) == 0 ? 0 : 1;
}
