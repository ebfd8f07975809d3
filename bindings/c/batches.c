/*
 * The plain functions of scanner.h, many tokens in one call. The buffers have lengths that suffice
 * for every source of so many bytes, so no call is refused for them, and nothing is allocated.
 *
 *     gcc -I bindings/c -o batches bindings/c/batches.c target/staticlib/libscanner.a
 */
#include "scanner.h"

#include <stdio.h>

static const uint8_t src[] = "quota := 017; lane = 'x'";

#define SRC_LEN (sizeof src - 1)
#define BATCH 256

static size_t table[SCANNER_TABLE_ENOUGH(SRC_LEN)], list[SCANNER_LIST_ENOUGH(SRC_LEN)];
static uint8_t area[SCANNER_AREA_ENOUGH(SRC_LEN)];
static size_t state[SCANNER_STATE_LEN], tokens[BATCH * SCANNER_TOKEN_LEN];

/* Prints the tokens of a batch; the kind of the last. */
static size_t print_batch(size_t count)
{
    size_t i, kind = SCANNER_KIND_NONE;
    printf("%zu tokens:", count);
    for (i = 0; i < count; i++) {
        const size_t *token = tokens + i * SCANNER_TOKEN_LEN;
        struct scanner_bytes text = scanner_part(token + SCANNER_TOKEN_TEXT_IN_AREA, src, area);
        kind = token[SCANNER_TOKEN_KIND];
        printf(" %s '%.*s'", scanner_kind_name(kind), (int)text.len, (const char *)text.start);
    }
    printf("\n");
    return kind;
}

int main(void)
{
    size_t count, kind = SCANNER_KIND_NONE;
    uint8_t refusal = scanner_open(src, SRC_LEN, 0, SRC_LEN, table, SCANNER_TABLE_ENOUGH(SRC_LEN),
                                   state, SCANNER_STATE_LEN, &count, 1);
    while (refusal == SCANNER_OK && kind != SCANNER_KIND_EOF) {
        refusal = scanner_scan_many(src, SRC_LEN, state, SCANNER_STATE_LEN,
                                    table, SCANNER_TABLE_ENOUGH(SRC_LEN),
                                    list, SCANNER_LIST_ENOUGH(SRC_LEN),
                                    area, SCANNER_AREA_ENOUGH(SRC_LEN),
                                    tokens, BATCH * SCANNER_TOKEN_LEN, &count, 1);
        if (refusal == SCANNER_OK)
            kind = print_batch(count);
    }
    if (refusal != SCANNER_OK)
        fprintf(stderr, "batches: %s\n", scanner_refusal_text(refusal));
    return refusal != SCANNER_OK;
}
