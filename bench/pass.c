#include "pass.h"
#include "scanner_struct.h"

#include <time.h>

static size_t table[SCANNER_TABLE_ENOUGH(SCANNER_MAX_SOURCE)];
static size_t list[SCANNER_LIST_ENOUGH(SCANNER_MAX_SOURCE)];
static uint8_t area[SCANNER_AREA_ENOUGH(SCANNER_MAX_SOURCE)];

#define LEN(array) (sizeof(array) / sizeof *(array))

size_t pass(const uint8_t *src, size_t len, size_t *sum)
{
    static size_t tokens[256 * SCANNER_TOKEN_LEN];
    size_t state[SCANNER_STATE_LEN], chars, given, i, kind = SCANNER_KIND_NONE, all = 0, total = 0;
    if (scanner_open(src, len, 0, len, table, LEN(table), state, LEN(state), &chars, 1) != SCANNER_OK)
        return 0;
    while (kind != SCANNER_KIND_EOF) {
        if (scanner_scan_many(src, len, state, LEN(state), table, LEN(table), list, LEN(list), area, LEN(area),
                              tokens, LEN(tokens), &given, 1) != SCANNER_OK)
            return 0;
        for (i = 0; i < given; i++) {
            const size_t *token = tokens + i * SCANNER_TOKEN_LEN;
            total += token[SCANNER_TOKEN_POSITION] + scanner_part(token + SCANNER_TOKEN_TEXT_IN_AREA, src, area).len;
            kind = token[SCANNER_TOKEN_KIND];
        }
        all += given;
    }
    *sum = total;
    return all;
}

size_t pass_by_one(const uint8_t *src, size_t len, size_t *sum)
{
    size_t state[SCANNER_STATE_LEN], token[SCANNER_TOKEN_LEN], chars, tokens = 0, total = 0;
    if (scanner_open(src, len, 0, len, table, LEN(table), state, LEN(state), &chars, 1) != SCANNER_OK)
        return 0;
    do {
        if (scanner_scan(src, len, state, LEN(state), table, LEN(table), list, LEN(list), area, LEN(area),
                         token, LEN(token)) != SCANNER_OK)
            return 0;
        tokens++;
        total += token[SCANNER_TOKEN_POSITION] + scanner_part(token + SCANNER_TOKEN_TEXT_IN_AREA, src, area).len;
    } while (token[SCANNER_TOKEN_KIND] != SCANNER_KIND_EOF);
    *sum = total;
    return tokens;
}

size_t pass_by_struct(const uint8_t *src, size_t len, size_t *sum)
{
    struct scanner s;
    struct scanner_token token;
    size_t tokens = 0, total = 0;
    uint8_t refusal = scanner_init(&s, src, len);
    while (refusal == SCANNER_OK && (refusal = scanner_next(&s, &token)) == SCANNER_OK) {
        tokens++;
        total += token.position + token.line + token.column + token.text.len;
        if (token.kind == SCANNER_KIND_EOF)
            break;
    }
    scanner_free(&s);
    *sum = total;
    return refusal == SCANNER_OK ? tokens : 0;
}

double thread_time(void)
{
    struct timespec time;
    clock_gettime(CLOCK_THREAD_CPUTIME_ID, &time);
    return (double)time.tv_sec * 1e9 + (double)time.tv_nsec;
}
