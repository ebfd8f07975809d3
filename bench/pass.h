/* One pass of a benchmark: a source is opened and scanned to EOF, in C. */
#ifndef PASS_H
#define PASS_H

#include <stddef.h>
#include <stdint.h>

/*
 * The number of tokens, EOF among them; 0 if a call was refused. `sum` gets the positions and the
 * lengths of the texts, so that all are read. `pass` takes up to 256 tokens in one call, and
 * `pass_by_one` one token; their buffers are large enough for any source, and are left as they are
 * from pass to pass. `pass_by_struct` goes through struct scanner, which allocates its own; it
 * reads lines and columns too.
 */
size_t pass(const uint8_t *src, size_t len, size_t *sum);
size_t pass_by_one(const uint8_t *src, size_t len, size_t *sum);
size_t pass_by_struct(const uint8_t *src, size_t len, size_t *sum);

/* The time that this thread has run, in nanoseconds: other programs are not counted. */
double thread_time(void);

#endif
