/*
 * The plain functions of scanner.h, one token at a time. The buffers start small on purpose, and
 * grow when a scan is refused for them.
 *
 *     gcc -I bindings/c -o plain bindings/c/plain.c target/staticlib/libscanner.a
 */
#include "scanner.h"

#include <stdio.h>
#include <stdlib.h>

static const uint8_t src[] = "quota := 017 // reads\nlane = ''\nleft = '";
static const size_t src_len = sizeof src - 1;

static size_t state[SCANNER_STATE_LEN], token[SCANNER_TOKEN_LEN];
static size_t *table, *list;
static uint8_t *area;
static size_t table_len = 1, list_len = SCANNER_ERROR_LEN, area_len = 1;

/* Prints what went wrong, and ends the program. */
static void give_up(const char *what)
{
    fprintf(stderr, "plain: %s\n", what);
    exit(1);
}

/* A buffer with room for so many bytes; what it had stays. */
static void *resize(void *buffer, size_t bytes)
{
    void *larger = realloc(buffer, bytes);
    if (larger == NULL)
        give_up("there is not enough memory");
    return larger;
}

/* Scans a token. A refused scan changes nothing, so it is made again with a larger buffer. */
static void scan(void)
{
    for (;;) {
        uint8_t refusal = scanner_scan(src, src_len, state, SCANNER_STATE_LEN, table, table_len,
                                       list, list_len, area, area_len, token, SCANNER_TOKEN_LEN);
        switch (refusal) {
        case SCANNER_OK:
            return;
        case SCANNER_TABLE_FULL:
            table_len *= 2;
            table = resize(table, table_len * sizeof *table);
            break;
        case SCANNER_LIST_FULL:
            list_len *= 2;
            list = resize(list, list_len * sizeof *list);
            break;
        case SCANNER_AREA_FULL:
            area_len *= 2;
            area = resize(area, area_len);
            break;
        default:
            give_up(scanner_refusal_text(refusal));
        }
    }
}

static void print_token(void)
{
    size_t place[SCANNER_POSITION_LEN];
    struct scanner_bytes text = scanner_part(token + SCANNER_TOKEN_TEXT_IN_AREA, src, area);
    scanner_position(state, SCANNER_STATE_LEN, table, table_len, token[SCANNER_TOKEN_POSITION],
                     place, SCANNER_POSITION_LEN);
    printf("%zu:%zu %s '%.*s'\n", place[SCANNER_LINE], place[SCANNER_COLUMN],
           scanner_kind_name(token[SCANNER_TOKEN_KIND]), (int)text.len, (const char *)text.start);
}

int main(void)
{
    size_t error[SCANNER_ERROR_LEN], chars, i;
    uint8_t refusal;

    table = resize(NULL, table_len * sizeof *table);
    list = resize(NULL, list_len * sizeof *list);
    area = resize(NULL, area_len);
    refusal = scanner_open(src, src_len, 0, src_len, table, table_len, state, SCANNER_STATE_LEN,
                           &chars, 1);
    if (refusal != SCANNER_OK)
        give_up(scanner_refusal_text(refusal));
    do {
        scan();
        print_token();
    } while (token[SCANNER_TOKEN_KIND] != SCANNER_KIND_EOF);
    for (i = 0; i < state[SCANNER_STATE_ERRORS]; i++) {
        scanner_error(state, SCANNER_STATE_LEN, list, list_len, i, error, SCANNER_ERROR_LEN);
        printf("%zu:%zu: %s\n", error[SCANNER_LINE], error[SCANNER_COLUMN],
               scanner_error_text(error[SCANNER_NUMBER]));
    }
    free(table);
    free(list);
    free(area);
    return 0;
}
