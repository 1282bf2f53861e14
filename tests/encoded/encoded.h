/* Runs of encoded calls, as tests/encoded/README.md describes them. */
#ifndef ENCODED_H
#define ENCODED_H

#include <stddef.h>
#include <stdint.h>

/* refusal: 31 or 10, or 0 where every call was made; length: the number of bytes of rows, 0 where refused. */
typedef struct {
    uint8_t refusal;
    size_t length;
} blotterfinch_ran;

/* encoded: read. arena: its calls' lent buffers, read and written. answers: written, rows at the front. */
blotterfinch_ran blotterfinch_run_encoded(const uint8_t *encoded, size_t encoded_length, uint8_t *arena,
                                          size_t arena_length, uint8_t *answers, size_t answers_length);

#endif
