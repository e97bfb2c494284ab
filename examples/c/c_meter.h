/* The meter for C: what crates/c_meter/src/lib.rt exports, and what its caller owes. docs/use/EMBEDDING.md says more. */
#ifndef C_METER_H
#define C_METER_H
#include <stddef.h>
#include <stdint.h>

/* Puts the lines of what a meter shows of a drive into `text`, and their length into `*used`. 0 if it did; otherwise the
   first of these that is so: 2 if the tariff is refused, 9 if the parameters are, 3 if the drive is; 8 if the lines are longer
   than `text_size`. 12 if memory ran out before that was known. If it isn't 0, `*used` is 0, and the bytes of `text` mean
   nothing. The texts are only read, none of them may lie in `text`, and none of the pointers may be null, one to no bytes
   neither. It calls `malloc`, `realloc` and `free`, and asks for 128 KiB of stack. */
uint8_t c_meter_fare(const uint8_t *tariff, size_t tariff_size, const uint8_t *params, size_t params_size,
                     const uint8_t *drive, size_t drive_size, uint8_t *text, size_t text_size, size_t *used);

#endif
