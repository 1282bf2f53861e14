/* Calls on one station, made by the library and by plain C. The rules of both are those of document 01; the
 * form of the calls is the benchmark's own. */
#ifndef MEASURE_H
#define MEASURE_H

#include <stddef.h>
#include <stdint.h>

/* One call: its kind, the number of bytes that it lends (below 64), the device, byte 2, byte 3, the
 * ticks, two bytes that are not looked at, and the bytes that it lends. */
enum { CALL_HEAD = 8, CALL_ROOM = 64, CALL_SIZE = CALL_HEAD + CALL_ROOM };
enum call { TAKE, REQUEST, CANCEL, TICK, LIST, STORE, RESTORE };

/* What a store that is read adds, and what the number of a line that breaks the rules is multiplied by. */
enum { RESTORED = 8000, LINE = 100 };

/* Makes every whole call on a fresh station, each request, listing and store at the front of the buffer; a restore
 * reads the whole text. Returns what the answers add up to: of a take the numbers that it carries, over a base for
 * its kind; of a request, of a listing and of a store the bytes written; of a tick the requests ended; of a restore
 * RESTORED; of a refused call the refusal, and of a broken line LINE times its number, too. */
uint64_t blotterfinch_measure(const uint8_t *calls, size_t calls_length, const uint8_t *text, size_t text_length,
                              uint8_t *buffer, size_t buffer_length);
uint64_t plain_measure(const uint8_t *calls, size_t calls_length, const uint8_t *text, size_t text_length,
                       uint8_t *buffer, size_t buffer_length);

#endif
