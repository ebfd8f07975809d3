/* What the tests of the C interface count. */
#ifndef CHECK_H
#define CHECK_H

#include "scanner.h"

#include <stdio.h>
#include <string.h>

static int passed, failed;

static inline void check(int holds, const char *what)
{
    if (holds) {
        passed++;
        return;
    }
    failed++;
    printf("failed: %s\n", what);
}

/* A part of a check: counted only where it fails. */
static inline void part(int holds, const char *what)
{
    if (!holds)
        check(0, what);
}

/* Whether bytes are those of a text. */
static inline int same(struct scanner_bytes bytes, const char *text)
{
    return bytes.len == strlen(text) && memcmp(bytes.start, text, bytes.len) == 0;
}

/* Prints how many checks held; the status of the program. */
static inline int counted(void)
{
    printf("%d passed, %d failed\n", passed, failed);
    return failed != 0;
}

#endif
