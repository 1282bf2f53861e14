/* What the comparisons share: counts of outcomes, seeded random inputs, bytes lent for reading. */
#ifndef SUPPORT_H
#define SUPPORT_H

#include <stddef.h>
#include <stdint.h>

enum function { READ, REQUEST, SWITCH, GET_PAIRED, LED, MOUSE, FUNCTIONS };

/* Notes one compared call; length is that of the report, frame or payload that was accepted. */
void count(enum function function, uint8_t refusal, size_t length);

/* Prints the counts of a function and gives their sum. Ends the run where an outcome never occurred. */
uint64_t print_counts(enum function function);

/* The same numbers in every run. */
void seed_random(uint64_t seed);
size_t below(size_t bound);
uint8_t any_byte(void);
void fill(uint8_t *bytes, size_t length);

/* Half of these are numbers that some rule looks for. */
uint8_t any_device(void);
uint8_t any_byte2(void);

/* Added to a right length, these leave it right in its low 8 or 16 bits only. */
enum { WRAPS = 2, WRAP_MAX = 0x10000 };
extern const size_t wraps[WRAPS];

/* Copies the bytes to where a page without access follows them: reading past their end stops the run.
 * NULL stays NULL. At most LENT_MAX bytes; they stay until the next call. */
enum { LENT_MAX = 2 * WRAP_MAX };
const uint8_t *lend(const uint8_t *bytes, size_t length);

/* 1 where the lent copy no longer holds these bytes. */
int was_written(const uint8_t *lent, const uint8_t *bytes, size_t length);

void print_bytes(const char *name, const uint8_t *bytes, size_t length);

#endif
