/* The rules of document 01 in plain C, to compare the library with. It shares the header's result
 * types and refusal numbers, and nothing else, with the library. */
#ifndef PLAIN_H
#define PLAIN_H

#include "blotterfinch.h"

/* The length of a report with this id, or 0 where no report has it. */
size_t plain_report_length(uint8_t id);

blotterfinch_report plain_read(const uint8_t *bytes, size_t bytes_length);

blotterfinch_written plain_request_frame(uint8_t device, uint8_t byte2, uint8_t byte3,
                                         const uint8_t *parameters, size_t parameters_length,
                                         uint8_t *buffer, size_t buffer_length, size_t offset);
blotterfinch_written plain_switch_frame(uint8_t device_bits, uint8_t timeout,
                                        uint8_t *buffer, size_t buffer_length, size_t offset);
blotterfinch_written plain_get_paired_frame(uint8_t *buffer, size_t buffer_length, size_t offset);
blotterfinch_written plain_led_frame(uint8_t device, uint8_t leds,
                                     uint8_t *buffer, size_t buffer_length, size_t offset);

blotterfinch_movement plain_mouse(const uint8_t *payload, size_t payload_length);

#endif
