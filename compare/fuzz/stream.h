/* Input for the ruler program, on standard output. */
#ifndef STREAM_H
#define STREAM_H

#include <stdint.h>

void write_bytes(uint64_t count);
void write_lines(uint64_t count);

#endif
