/* The plain C reader and writer: buffers and results as in oatlantern.h. */
#ifndef PLAIN_H
#define PLAIN_H

#include <stddef.h>
#include <stdint.h>

int32_t plain_read_frame(const uint8_t *frame, size_t frame_len, uint8_t *record, size_t record_len);
int32_t plain_write_frame(const uint8_t *record, size_t record_len, uint8_t *frame, size_t frame_len);

#endif
