/* The test of scanner.h: names, listings, refusals, buffers that grow, many scans in one call. */
#include "check.h"

#include <stdarg.h>
#include <stdlib.h>

/* A scanner with its buffers. */
struct run {
    const uint8_t *src;
    size_t src_len;
    size_t state[SCANNER_STATE_LEN];
    size_t token[SCANNER_TOKEN_LEN];
    size_t table[64], list[64];
    uint8_t area[256];
    size_t table_len, list_len, area_len;
    size_t answer[SCANNER_ERROR_LEN];
    size_t tokens[256 * SCANNER_TOKEN_LEN];
};

static void prepare(struct run *r, const char *src, size_t len)
{
    memset(r, 0, sizeof *r);
    memset(r->area, 0xaa, sizeof r->area);
    r->src = (const uint8_t *)src;
    r->src_len = len;
    r->table_len = 64;
    r->list_len = 64;
    r->area_len = 256;
}

static uint8_t open_at(struct run *r, size_t base, size_t size)
{
    return scanner_open(r->src, r->src_len, base, size, r->table, r->table_len,
                        r->state, SCANNER_STATE_LEN, r->answer, SCANNER_ERROR_LEN);
}

/* Opens a text without a 0 in it at base 0, in a size of its bytes. */
static uint8_t start(struct run *r, const char *src)
{
    prepare(r, src, strlen(src));
    return open_at(r, 0, r->src_len);
}

static uint8_t scan_to(struct run *r, size_t *list, size_t list_len)
{
    return scanner_scan(r->src, r->src_len, r->state, SCANNER_STATE_LEN, r->table, r->table_len,
                        list, list_len, r->area, r->area_len, r->token, SCANNER_TOKEN_LEN);
}

static uint8_t scan(struct run *r)
{
    return scan_to(r, r->list, r->list_len);
}

/* Scans many, with room for so many numbers of tokens. */
static uint8_t scan_many(struct run *r, size_t room)
{
    return scanner_scan_many(r->src, r->src_len, r->state, SCANNER_STATE_LEN, r->table, r->table_len,
                             r->list, r->list_len, r->area, r->area_len, r->tokens, room, r->answer, 1);
}

static uint8_t locate(struct run *r, size_t position)
{
    return scanner_position(r->state, SCANNER_STATE_LEN, r->table, r->table_len, position,
                            r->answer, SCANNER_POSITION_LEN);
}

static uint8_t line_start(struct run *r, size_t line)
{
    return scanner_line_start(r->state, SCANNER_STATE_LEN, r->table, r->table_len, line, r->answer, 1);
}

static uint8_t error_at(struct run *r, size_t index)
{
    return scanner_error(r->state, SCANNER_STATE_LEN, r->list, r->list_len, index,
                         r->answer, SCANNER_ERROR_LEN);
}

/* The bytes of a token's text or value, which must lie in their buffer. */
static struct scanner_bytes bytes_of(struct run *r, const size_t *token, int value)
{
    uint8_t refusal = value ? scanner_value(r->src, r->src_len, r->area, r->area_len, token, SCANNER_TOKEN_LEN,
                                            r->answer, SCANNER_PART_LEN)
                            : scanner_text(r->src, r->src_len, r->area, r->area_len, token, SCANNER_TOKEN_LEN,
                                           r->answer, SCANNER_PART_LEN);
    check(refusal == SCANNER_OK, "a token's part lies in its buffer");
    return scanner_part(r->answer, r->src, r->area);
}

static struct scanner_bytes text_of(struct run *r, const size_t *token)
{
    return bytes_of(r, token, 0);
}

static struct scanner_bytes value_of(struct run *r, const size_t *token)
{
    return bytes_of(r, token, 1);
}

/* A listing is gathered here, its lines parted by bars. */
static char listing[4096];
static size_t listed;

static void put(const char *format, ...)
{
    va_list args;
    va_start(args, format);
    listed += (size_t)vsnprintf(listing + listed, sizeof listing - listed, format, args);
    va_end(args);
}

static void put_bytes(struct scanner_bytes bytes)
{
    size_t i;
    if (bytes.len == 0)
        put(" -");
    else
        put(" ");
    for (i = 0; i < bytes.len; i++)
        put("%02x", bytes.start[i]);
}

static void put_token(struct run *r)
{
    size_t kind = r->token[SCANNER_TOKEN_KIND];
    check(locate(r, r->token[SCANNER_TOKEN_POSITION]) == SCANNER_OK, "a token's position has a line");
    put("%zu %zu %zu %zu", r->answer[SCANNER_OFFSET], r->answer[SCANNER_LINE],
        r->answer[SCANNER_COLUMN], kind);
    put_bytes(text_of(r, r->token));
    if (kind == SCANNER_KIND_STRING)
        put_bytes(value_of(r, r->token));
    if (kind == SCANNER_KIND_CHAR)
        put(" %zx", r->token[SCANNER_TOKEN_CODE]);
    put("|");
}

/* The listing of a text that is open: tokens up to EOF, errors, line count. */
static const char *list(struct run *r)
{
    size_t i;
    uint8_t refusal;
    listed = 0;
    do {
        refusal = scan(r);
        if (refusal != SCANNER_OK) {
            put("R %u", refusal);
            return listing;
        }
        put_token(r);
    } while (r->token[SCANNER_TOKEN_KIND] != SCANNER_KIND_EOF);
    for (i = 0; i < r->state[SCANNER_STATE_ERRORS]; i++) {
        check(error_at(r, i) == SCANNER_OK, "an error is answered");
        put("E %zu %zu %zu %zu|", r->answer[0], r->answer[1], r->answer[2], r->answer[3]);
    }
    put("L %zu", r->state[SCANNER_STATE_LINES]);
    return listing;
}

struct row {
    const char *text;
    size_t more; /* size above the number of bytes */
    const char *listing;
};

static const struct row rows[] = {
    {"x:=017\n", 0, "0 1 1 4 78|1 1 2 45 -|3 1 4 5 306f3137|6 1 7 55 -|7 1 8 2 -|L 1"},
    {"", 0, "0 1 1 2 -|L 1"},
    {"x", 0, "0 1 1 4 78|1 1 2 55 -|1 1 2 2 -|L 1"},
    {"08", 0, "0 1 1 1 306f|1 1 2 5 38|2 1 3 55 -|2 1 3 2 -|E 1 1 2 2|L 1"},
    {"072.40", 0, "0 1 1 6 3037322e3430|6 1 7 55 -|6 1 7 2 -|L 1"},
    {"0123i", 0, "0 1 1 7 3031323369|5 1 6 55 -|5 1 6 2 -|L 1"},
    {"0_600", 0, "0 1 1 5 306f5f363030|5 1 6 55 -|5 1 6 2 -|L 1"},
    {"0_8", 0, "0 1 1 1 306f5f|2 1 3 5 38|3 1 4 55 -|3 1 4 2 -|E 2 1 3 4|L 1"},
    {"0__7.5", 0, "0 1 1 1 305f|2 1 3 4 5f37|4 1 5 6 2e35|6 1 7 55 -|6 1 7 2 -|E 2 1 3 4|L 1"},
    {"0X1F", 0, "0 1 1 5 30783146|4 1 5 55 -|4 1 5 2 -|L 1"},
    {"''", 0, "0 1 1 1 2727|2 1 3 55 -|2 1 3 2 -|E 2 1 3 13|L 1"},
    {"'ab'", 0, "0 1 1 1 27616227|4 1 5 55 -|4 1 5 2 -|E 4 1 5 13|L 1"},
    {"\"\\400\"", 0, "0 1 1 1 225c343030|5 1 6 1 22|6 1 7 55 -|6 1 7 2 -|E 5 1 6 12|E 6 1 7 8|L 1"},
    {"x /* c */ r\n", 0, "0 1 1 4 78|2 1 3 3 2f2a2063202a2f|10 1 11 4 72|11 1 12 55 -|12 1 13 2 -|L 1"},
    {"1__0", 0, "0 1 1 1 315f|2 1 3 4 5f30|4 1 5 55 -|4 1 5 2 -|E 2 1 3 4|L 1"},
    {"`\n", 0, "0 1 1 9 600a 0a|2 1 3 55 -|2 1 3 2 -|E 2 1 3 6|L 1"},
    {"`\n", 1, "0 1 1 9 600a 0a|2 2 1 55 -|2 2 1 2 -|E 2 2 1 6|L 2"},
    {"'\\n' \"a\\x80\"", 0, "0 1 1 8 275c6e27 a|5 1 6 9 22615c78383022 6180|12 1 13 55 -|12 1 13 2 -|L 1"},
};

static void test_rows(void)
{
    struct run r;
    size_t i;
    for (i = 0; i < sizeof rows / sizeof *rows; i++) {
        prepare(&r, rows[i].text, strlen(rows[i].text));
        check(open_at(&r, 0, r.src_len + rows[i].more) == SCANNER_OK, rows[i].text);
        check(r.answer[0] == r.src_len, "opening counts the characters");
        check(strcmp(list(&r), rows[i].listing) == 0, rows[i].listing);
    }
}

static void test_opening(void)
{
    static char longest[SCANNER_MAX_SOURCE + 1];
    struct run r;
    check(start(&r, "a\xff") == SCANNER_NOT_UTF8 && r.answer[0] == 1, "1, with the place");
    memset(longest, ' ', sizeof longest);
    prepare(&r, longest, SCANNER_MAX_SOURCE + 1);
    check(open_at(&r, 0, SCANNER_MAX_SOURCE + 1) == SCANNER_TOO_LONG, "2 above the limit");
    r.src_len = SCANNER_MAX_SOURCE;
    check(open_at(&r, 0, SCANNER_MAX_SOURCE) == SCANNER_OK, "the limit itself");
    prepare(&r, "x", 1);
    check(open_at(&r, 0, 0) == SCANNER_SIZE, "3, size below the characters");
    check(open_at(&r, SCANNER_MAX_POSITION, 1) == SCANNER_SIZE, "3, base + size too large");
    check(open_at(&r, SCANNER_MAX_POSITION - 1, 1) == SCANNER_OK, "the last base");
    r.table_len = 0;
    check(open_at(&r, 0, 1) == SCANNER_TABLE_FULL, "7, no table");
    prepare(&r, "\xc3\xa9", 2);
    check(open_at(&r, 0, 1) == SCANNER_OK && r.answer[0] == 1, "one character of two bytes");
}

static void test_queries(void)
{
    struct run r;
    prepare(&r, "x", 1);
    check(open_at(&r, 5, 1) == SCANNER_OK, "base 5");
    check(scan(&r) == SCANNER_OK && r.token[SCANNER_TOKEN_POSITION] == 5, "a position is base + offset");
    check(locate(&r, 4) == SCANNER_POSITION, "4 below the base");
    check(locate(&r, 5) == SCANNER_OK && r.answer[0] == 0 && r.answer[1] == 1 && r.answer[2] == 1, "the base");
    check(locate(&r, 6) == SCANNER_OK && r.answer[2] == 2, "base + size");
    check(locate(&r, 7) == SCANNER_POSITION, "4 above base + size");
    check(line_start(&r, 0) == SCANNER_NO_LINE, "5, line 0");
    check(line_start(&r, 1) == SCANNER_OK && r.answer[0] == 5, "the start of line 1");
    check(line_start(&r, 2) == SCANNER_NO_LINE, "5, above the count");
    r.answer[0] = r.answer[3] = 9;
    check(error_at(&r, 0) == SCANNER_OK && r.answer[0] == 0 && r.answer[3] == 0, "no error: zeros");
}

static void test_states(void)
{
    struct run r;
    check(start(&r, "x y") == SCANNER_OK, "a state to forge");
    r.state[SCANNER_STATE_PLACE] = 4;
    check(scan(&r) == SCANNER_DOES_NOT_FIT, "6, place beyond the source");
    r.state[SCANNER_STATE_PLACE] = 0;
    r.state[SCANNER_STATE_OFFSET] = 1;
    check(scan(&r) == SCANNER_DOES_NOT_FIT, "6, offset above place");
    r.state[SCANNER_STATE_OFFSET] = 0;
    r.state[SCANNER_STATE_LINES] = 0;
    check(scan(&r) == SCANNER_DOES_NOT_FIT, "6, line count 0");
    check(locate(&r, 0) == SCANNER_DOES_NOT_FIT, "6 from a query");
    r.state[SCANNER_STATE_LINES] = 1;
    r.table[0] = 1;
    check(scan(&r) == SCANNER_DOES_NOT_FIT, "6, first start not 0");
    r.table[0] = 0;
    r.state[SCANNER_STATE_ERRORS] = 17;
    check(scan(&r) == SCANNER_DOES_NOT_FIT, "6, error count above the list");
    r.state[SCANNER_STATE_ERRORS] = 0;
    r.state[SCANNER_STATE_LINE] = 2;
    check(scan(&r) == SCANNER_DOES_NOT_FIT, "6, a line that is not the line count");
    check(locate(&r, 0) == SCANNER_DOES_NOT_FIT, "6 from a query, by the line");
    check(error_at(&r, 0) == SCANNER_DOES_NOT_FIT, "6 from a query that is lent no table");
    r.state[SCANNER_STATE_LINE] = 1;
    check(scan(&r) == SCANNER_OK, "mended");
    r.state[SCANNER_STATE_LINE_START] = 1;
    check(scan(&r) == SCANNER_DOES_NOT_FIT, "6, a line start that is not the last");
    r.state[SCANNER_STATE_LINE_START] = 0;
    check(scan(&r) == SCANNER_OK, "mended again");
}

/* The state after each token: its line is the one that the table has for its offset. */
static void current_line(const char *src, size_t size, size_t line, size_t start)
{
    struct run r;
    prepare(&r, src, strlen(src));
    check(open_at(&r, 0, size) == SCANNER_OK, "a text and its size");
    do {
        check(scan(&r) == SCANNER_OK, "a token");
        check(locate(&r, r.state[SCANNER_STATE_OFFSET]) == SCANNER_OK, "the offset that was reached");
        check(r.answer[SCANNER_LINE] == r.state[SCANNER_STATE_LINE], "its line");
        check(r.answer[SCANNER_COLUMN] == r.state[SCANNER_STATE_OFFSET] - r.state[SCANNER_STATE_LINE_START] + 1,
              "its column");
    } while (r.token[SCANNER_TOKEN_KIND] != SCANNER_KIND_EOF);
    check(r.state[SCANNER_STATE_LINE] == line && r.state[SCANNER_STATE_LINE_START] == start, "the last line");
}

static void test_lines(void)
{
    current_line("", 0, 1, 0);
    current_line("x", 1, 1, 0);
    current_line("x\ny", 3, 2, 2);
    current_line("\n\n/*\n*/ x\n", 10, 4, 5);
    current_line("\n\n/*\n*/ x\n", 11, 5, 10);
    current_line("`\n", 2, 1, 0);
    current_line("`\n", 3, 2, 2);
}

static void test_short_slices(void)
{
    struct run r;
    check(start(&r, "x") == SCANNER_OK, "a text for short slices");
    check(scanner_scan(r.src, r.src_len, r.state, SCANNER_STATE_LEN - 1, r.table, 64, r.list, 64, r.area, 256,
                       r.token, SCANNER_TOKEN_LEN) == SCANNER_DOES_NOT_FIT, "6, a short state");
    check(scanner_scan(r.src, r.src_len, r.state, SCANNER_STATE_LEN, r.table, 64, r.list, 64, r.area, 256,
                       r.token, SCANNER_TOKEN_LEN - 1) == SCANNER_DOES_NOT_FIT, "6, a short token");
    check(scanner_open(r.src, r.src_len, 0, 1, r.table, 64, r.state, SCANNER_STATE_LEN,
                       r.answer, 0) == SCANNER_DOES_NOT_FIT, "6, no answer");
    check(scanner_error(r.state, SCANNER_STATE_LEN, r.list, 64, 0,
                        r.answer, SCANNER_ERROR_LEN - 1) == SCANNER_DOES_NOT_FIT, "6, a short answer");
}

/* A scan that is to be refused, and to change nothing. */
static void refuse(struct run *r, uint8_t number, const char *what)
{
    struct run before = *r;
    check(scan(r) == number, what);
    check(memcmp(&before, r, sizeof before) == 0, "a refused scan changes nothing");
}

static void test_full(void)
{
    struct run r;
    start(&r, "\n\nx");
    r.table_len = 2;
    refuse(&r, SCANNER_TABLE_FULL, "7, a full table");
    r.table_len = 3;
    check(scan(&r) == SCANNER_OK && r.state[SCANNER_STATE_LINES] == 3, "a larger table");
    start(&r, "08");
    r.list_len = 3;
    refuse(&r, SCANNER_LIST_FULL, "8, a full list");
    r.list_len = 4;
    check(scan(&r) == SCANNER_OK && r.state[SCANNER_STATE_ERRORS] == 1, "a larger list");
    check(r.list[SCANNER_OFFSET] == 1 && r.list[SCANNER_NUMBER] == SCANNER_ERROR_OCTAL, "the record in the list");
}

/* A thousand characters that are no token, and a list of 999 errors. */
static void test_thousand(void)
{
    static size_t list[1000 * SCANNER_ERROR_LEN];
    static char signs[1000];
    struct run r, before;
    size_t i;
    memset(signs, '#', sizeof signs);
    prepare(&r, signs, sizeof signs);
    check(open_at(&r, 0, sizeof signs) == SCANNER_OK, "a thousand of #");
    for (i = 0; i < 999; i++) {
        part(scan_to(&r, list, 999 * SCANNER_ERROR_LEN) == SCANNER_OK, "an error each");
        part(r.token[SCANNER_TOKEN_KIND] == SCANNER_KIND_ILLEGAL, "ILLEGAL each");
        part(list[i * SCANNER_ERROR_LEN + SCANNER_OFFSET] == i + 1, "after the token");
        part(list[i * SCANNER_ERROR_LEN + SCANNER_NUMBER] == SCANNER_ERROR_TOKEN, "no token");
    }
    before = r;
    check(scan_to(&r, list, 999 * SCANNER_ERROR_LEN) == SCANNER_LIST_FULL, "8 at the last");
    check(memcmp(&before, &r, sizeof r) == 0, "state and token are as before");
    check(list[999 * SCANNER_ERROR_LEN + SCANNER_NUMBER] == 0, "and nothing is written");
    check(scan_to(&r, list, 1000 * SCANNER_ERROR_LEN) == SCANNER_OK, "a list of a thousand");
    check(r.state[SCANNER_STATE_ERRORS] == 1000, "a thousand errors");
}

static void test_area(void)
{
    struct run r;
    start(&r, "017");
    for (r.area_len = 1; r.area_len < 4; r.area_len *= 2)
        refuse(&r, SCANNER_AREA_FULL, "9, a small area");
    check(scan(&r) == SCANNER_OK, "a larger area");
    check(r.token[SCANNER_TOKEN_TEXT_IN_AREA] == 1, "a changed text is in the area");
    check(same(text_of(&r, r.token), "0o17"), "the text in the area");
    check(r.area[4] == 0xaa, "later bytes keep their content");
    start(&r, "`a\r\n`");
    check(scan(&r) == SCANNER_OK && r.token[SCANNER_TOKEN_KIND] == SCANNER_KIND_STRING, "a raw string with a CR");
    check(same(text_of(&r, r.token), "`a\n`"), "its text");
    check(same(value_of(&r, r.token), "a\n"), "its value, after the text");
    start(&r, "\"ab\"");
    check(scan(&r) == SCANNER_OK && value_of(&r, r.token).start == r.src + 1,
          "a plain value is shown from the source");
}

/* Parts that do not lie in their buffers, and slices that are too short. */
static void test_parts(void)
{
    struct run r;
    size_t token[SCANNER_TOKEN_LEN], answer[SCANNER_PART_LEN] = {7, 7, 7};
    start(&r, "\"a\\x41\"");
    check(scan(&r) == SCANNER_OK, "a string with an escape");
    memcpy(token, r.token, sizeof token);
    check(same(text_of(&r, token), "\"a\\x41\"") && same(value_of(&r, token), "aA"), "its text and its value");
    token[SCANNER_TOKEN_TEXT_END] = r.src_len;
    check(same(text_of(&r, token), "\"a\\x41\""), "a part up to the end of the source");
    token[SCANNER_TOKEN_TEXT_END] = r.src_len + 1;
    check(scanner_text(r.src, r.src_len, r.area, r.area_len, token, SCANNER_TOKEN_LEN, answer, SCANNER_PART_LEN)
              == SCANNER_DOES_NOT_FIT, "6, a part past the source");
    token[SCANNER_TOKEN_TEXT_START] = r.src_len + 2;
    check(scanner_text(r.src, r.src_len, r.area, r.area_len, token, SCANNER_TOKEN_LEN, answer, SCANNER_PART_LEN)
              == SCANNER_DOES_NOT_FIT, "6, a part that ends before its start");
    check(scanner_value(r.src, r.src_len, r.area, 1, r.token, SCANNER_TOKEN_LEN, answer, SCANNER_PART_LEN)
              == SCANNER_DOES_NOT_FIT, "6, a part past the area");
    check(scanner_value(r.src, r.src_len, r.area, 2, r.token, SCANNER_TOKEN_LEN - 1, answer, SCANNER_PART_LEN)
              == SCANNER_DOES_NOT_FIT, "6, a short token");
    check(scanner_text(r.src, r.src_len, r.area, 2, r.token, SCANNER_TOKEN_LEN, answer, SCANNER_PART_LEN - 1)
              == SCANNER_DOES_NOT_FIT, "6, a short answer");
    check(answer[0] == 7 && answer[1] == 7 && answer[2] == 7, "a refused call writes nothing");
}

/* The area on the heap, doubled as often as the scan asks for it. */
static void test_growth(void)
{
    size_t asked = 0, len = 1, i;
    uint8_t refusal = SCANNER_AREA_FULL, *area = malloc(len);
    char text[2 + 1000 + 3];
    struct run r;
    for (i = 2; i < 1002; i++)
        text[i] = i % 2 == 0 ? 'c' : '\r';
    memcpy(text, "/*", 2);
    memcpy(text + 1002, "*/", 3);
    start(&r, text);
    while (area != NULL
           && (refusal = scanner_scan(r.src, r.src_len, r.state, SCANNER_STATE_LEN, r.table, 64, r.list, 64,
                                      area, len, r.token, SCANNER_TOKEN_LEN)) == SCANNER_AREA_FULL) {
        asked++;
        len *= 2;
        area = realloc(area, len);
    }
    check(area != NULL && refusal == SCANNER_OK, "the scan after growth");
    check(asked == 9 && len == 512, "doubled nine times");
    check(scanner_part(r.token + SCANNER_TOKEN_TEXT_IN_AREA, r.src, area).len == 504, "a comment without its CRs");
    free(area);
}

/* Whether many scans stop after a token: it shows something from the area, or is EOF. */
static int is_last(const size_t *token)
{
    return token[SCANNER_TOKEN_TEXT_IN_AREA] == 1 || token[SCANNER_TOKEN_VALUE_IN_AREA] == 1
           || token[SCANNER_TOKEN_KIND] == SCANNER_KIND_EOF;
}

/* Scans many, and in a copy as many one at a time: the same tokens, state and buffers, or the refusal of the first and nothing changed. */
static uint8_t scan_beside(struct run *r, size_t room)
{
    struct run one = *r, next;
    uint8_t refusal = scan_many(r, room);
    size_t count = r->answer[0], i;
    if (refusal != SCANNER_OK) {
        part(memcmp(&one, r, sizeof one) == 0, "a refusal that changes nothing");
        part((room < SCANNER_TOKEN_LEN ? SCANNER_DOES_NOT_FIT : scan(&one)) == refusal, "the refusal of the first scan");
        return refusal;
    }
    part(count > 0 && count <= room / SCANNER_TOKEN_LEN, "a token, and no more than there is room for");
    for (i = 0; i < count && i < room / SCANNER_TOKEN_LEN; i++) {
        part(scan(&one) == SCANNER_OK, "a token that one scan gives, too");
        part(i + 1 == count || !is_last(one.token), "no token after one that is the last");
        memcpy(one.tokens + i * SCANNER_TOKEN_LEN, one.token, sizeof one.token);
    }
    next = one;
    part(count == room / SCANNER_TOKEN_LEN || is_last(one.token) || scan(&next) != SCANNER_OK, "a stop where one more scan gives a token");
    memcpy(one.token, r->token, sizeof one.token);
    one.answer[0] = count;
    part(memcmp(&one, r, sizeof one) == 0, "what many scans leave is what as many scans leave");
    return refusal;
}

/* Reads a text to EOF in batches; the number of tokens. */
static size_t read_beside(const char *text, size_t more, size_t room)
{
    struct run r;
    size_t tokens = 0, kind = SCANNER_KIND_NONE;
    prepare(&r, text, strlen(text));
    open_at(&r, 0, r.src_len + more);
    while (kind != SCANNER_KIND_EOF) {
        uint8_t refusal = scan_beside(&r, room);
        part(refusal == SCANNER_OK, "a batch");
        if (refusal != SCANNER_OK)
            break;
        tokens += r.answer[0];
        kind = r.tokens[(r.answer[0] - 1) * SCANNER_TOKEN_LEN + SCANNER_TOKEN_KIND];
    }
    part(scan_beside(&r, room) == SCANNER_OK && r.answer[0] == 1, "EOF alone after EOF");
    return tokens;
}

/* The same tokens as one at a time, in rooms for 1, 1, 2 and 256 of them. */
static void test_batches(void)
{
    static const size_t rooms[] = {10, 11, 25, 2560};
    char text[600 + 16];
    struct run r;
    size_t i, j;
    for (i = 0; i < 600; i++)
        text[i] = "x+"[i % 2];
    strcpy(text + 600, "017 \"\\n\" + y");
    for (i = 0; i < sizeof rooms / sizeof *rooms; i++) {
        for (j = 0; j < sizeof rows / sizeof *rows; j++)
            check(read_beside(rows[j].text, rows[j].more, rooms[i]) > 0, "a row in batches");
        check(read_beside(text, 0, rooms[i]) == 606, "a text of more than two batches");
    }
    for (i = 0; i < SCANNER_TOKEN_LEN; i++) {
        start(&r, "x");
        check(scan_beside(&r, i) == SCANNER_DOES_NOT_FIT, "6, no room for a token");
    }
}

static void test_stops(void)
{
    struct run r;
    start(&r, "a \"b\" \"b\\n\" c");
    check(scan_beside(&r, 2560) == SCANNER_OK && r.answer[0] == 3, "a stop after an escape");
    check(same(value_of(&r, r.tokens + SCANNER_TOKEN_LEN), "b"), "a value in the source");
    check(same(value_of(&r, r.tokens + 2 * SCANNER_TOKEN_LEN), "b\n"), "a value in the area");
    check(scan_beside(&r, 2560) == SCANNER_OK && r.answer[0] == 3, "c, a semicolon and EOF");
    check(scan_beside(&r, 2560) == SCANNER_OK && r.answer[0] == 1, "EOF again");
    start(&r, "017 018");
    check(scan_beside(&r, 2560) == SCANNER_OK && r.answer[0] == 1, "a stop after a changed text");
    check(same(text_of(&r, r.tokens), "0o17"), "its text");
    check(scan(&r) == SCANNER_OK && same(text_of(&r, r.token), "0o1"), "one scan goes on after many");
    check(scan_beside(&r, 2560) == SCANNER_OK && r.answer[0] == 3, "many go on after one scan");
}

/* Many scans that give some tokens and stop before one that is refused, again and again. */
static void refuse_many(struct run *r, size_t count, uint8_t number, const char *what)
{
    if (count > 0)
        check(scan_beside(r, 2560) == SCANNER_OK && r->answer[0] == count, "the tokens before it");
    check(scan_beside(r, 2560) == number, what);
    check(scan_beside(r, 2560) == number, "refused again");
}

static void test_many_full(void)
{
    struct run r;
    start(&r, "x +\n\ny");
    r.table_len = 2;
    refuse_many(&r, 2, SCANNER_TABLE_FULL, "7 after two tokens");
    r.table_len = 3;
    check(scan_beside(&r, 2560) == SCANNER_OK && r.answer[0] == 3, "on with a larger table");
    check(r.state[SCANNER_STATE_LINES] == 3, "three lines");
    start(&r, "x '' y ''");
    r.list_len = 7;
    refuse_many(&r, 3, SCANNER_LIST_FULL, "8 after three tokens");
    r.list_len = 8;
    check(scan_beside(&r, 2560) == SCANNER_OK && r.answer[0] == 3, "on with a larger list");
    check(r.state[SCANNER_STATE_ERRORS] == 2, "two errors");
    start(&r, "x + 017 y");
    r.area_len = 3;
    refuse_many(&r, 2, SCANNER_AREA_FULL, "9 after two tokens");
    r.area_len = 4;
    check(scan_beside(&r, 2560) == SCANNER_OK && r.answer[0] == 1, "on with a larger area");
    check(same(text_of(&r, r.tokens), "0o17"), "the text that had no room");
    check(scan_beside(&r, 2560) == SCANNER_OK && r.answer[0] == 3, "and after it");
}

static void test_many_states(void)
{
    struct run r, before;
    start(&r, "x y");
    before = r;
    check(scanner_scan_many(r.src, r.src_len, r.state, SCANNER_STATE_LEN - 1, r.table, 64, r.list, 64, r.area, 256,
                            r.tokens, 2560, r.answer, 1) == SCANNER_DOES_NOT_FIT, "6, a short state");
    check(scanner_scan_many(r.src, r.src_len, r.state, SCANNER_STATE_LEN, r.table, 64, r.list, 64, r.area, 256,
                            r.tokens, 2560, r.answer, 0) == SCANNER_DOES_NOT_FIT, "6, no answer");
    check(scan_many(&r, 9) == SCANNER_DOES_NOT_FIT, "6, no room for a token");
    check(memcmp(&before, &r, sizeof before) == 0, "short slices: nothing is written");
    r.state[SCANNER_STATE_PLACE] = 4;
    refuse_many(&r, 0, SCANNER_DOES_NOT_FIT, "6, a forged place");
    r.state[SCANNER_STATE_PLACE] = 0;
    r.state[SCANNER_STATE_ERRORS] = 17;
    refuse_many(&r, 0, SCANNER_DOES_NOT_FIT, "6, a forged error count");
    r.state[SCANNER_STATE_ERRORS] = 0;
    check(scan_beside(&r, 2560) == SCANNER_OK && r.answer[0] == 4, "mended, and read at once");
}

/* The operators of each precedence, 1 to 5, and other kinds. */
static void test_precedence(void)
{
    static const char *const levels[] = {
        " || ", " && ", " == != < <= > >= ", " + - | ^ ", " * / % << >> & &^ ",
    };
    size_t kind;
    int level;
    for (kind = 0; kind < SCANNER_KINDS + 2; kind++) {
        int expected = 0;
        char word[16];
        snprintf(word, sizeof word, " %s ", scanner_kind_name(kind));
        for (level = 1; level <= 5; level++)
            if (kind < SCANNER_KINDS && strstr(levels[level - 1], word) != NULL)
                expected = level;
        check(scanner_kind_precedence(kind) == expected, word);
    }
}

static void test_classes(void)
{
    size_t kind;
    for (kind = 0; kind < SCANNER_KINDS + 2; kind++) {
        const char *name = scanner_kind_name(kind);
        int capital = 'A' <= name[0] && name[0] <= 'Z', small = 'a' <= name[0] && name[0] <= 'z';
        int none = kind >= SCANNER_KINDS;
        part(scanner_kind_is_literal(kind) == (capital && kind > SCANNER_KIND_COMMENT), name);
        part(scanner_kind_is_keyword(kind) == small, name);
        part(scanner_kind_is_operator(kind) == (!none && !capital && !small), name);
    }
    check(strcmp(scanner_kind_name(SCANNER_KIND_AND_NOT_ASSIGN), "&^=") == 0, "the name of &^=");
    check(strcmp(scanner_kind_name(SCANNER_KINDS), "") == 0, "no kind, and no name");
}

/* Each error and each refusal has a text of its own. */
static void test_texts(void)
{
    size_t i, j;
    for (i = 0; i <= SCANNER_ERROR_TOKEN; i++)
        for (j = 0; j < i; j++)
            part(strcmp(scanner_error_text(i), scanner_error_text(j)) != 0, scanner_error_text(i));
    for (i = 0; i <= SCANNER_AREA_FULL + 1; i++)
        for (j = 0; j < i; j++)
            part(strcmp(scanner_refusal_text(i), scanner_refusal_text(j)) != 0,
                 scanner_refusal_text(i));
    check(strcmp(scanner_error_text(SCANNER_ERROR_TOKEN + 1), "unknown error") == 0, "no error");
    check(strcmp(scanner_refusal_text(SCANNER_AREA_FULL + 1), "unknown refusal") == 0,
          "no refusal of the library");
    check(strcmp(scanner_refusal_text(SCANNER_NO_MEMORY), "not enough memory") == 0,
          "the text of 255");
}

int main(void)
{
    check(SCANNER_KINDS == 82 && SCANNER_KIND_VAR == 81 && SCANNER_KIND_SEMICOLON == 55, "82 kinds");
    check(SCANNER_AREA_FULL == 9 && SCANNER_ERROR_TOKEN == 14, "9 refusals, 14 errors");
    test_precedence();
    test_classes();
    test_texts();
    test_rows();
    test_opening();
    test_queries();
    test_states();
    test_lines();
    test_short_slices();
    test_full();
    test_thousand();
    test_area();
    test_parts();
    test_growth();
    test_batches();
    test_stops();
    test_many_full();
    test_many_states();
    return counted();
}
