/*
 * The test of scanner_struct.h: random texts beside scanner_scan, token by token; buffers that
 * grow; no memory; refusals. An argument gives another number of random texts, and leaves out the
 * long ones.
 */
#include <stdint.h>
#include <stdlib.h>

/* How many more allocations succeed. */
static size_t allocations = SIZE_MAX;

static void *allocate(void *buffer, size_t bytes)
{
    if (allocations == 0)
        return NULL;
    allocations--;
    return realloc(buffer, bytes);
}

#define malloc(bytes) allocate(NULL, bytes)
#define realloc(buffer, bytes) allocate(buffer, bytes)
#include "scanner_struct.h"
#undef malloc
#undef realloc

#include "check.h"

/* The plain functions on the same source, with buffers of lengths that always suffice. */
struct plain {
    const uint8_t *src;
    size_t len, chars;
    size_t state[SCANNER_STATE_LEN], token[SCANNER_TOKEN_LEN];
    size_t *table, *list;
    uint8_t *area;
    size_t byte, offset; /* a byte of the source, and the characters before it */
};

static uint8_t plain_open(struct plain *p, size_t size)
{
    return scanner_open(p->src, p->len, 0, size, p->table, SCANNER_TABLE_ENOUGH(p->len),
                        p->state, SCANNER_STATE_LEN, &p->chars, 1);
}

static void plain_init(struct plain *p, const uint8_t *src, size_t len)
{
    memset(p, 0, sizeof *p);
    p->src = src;
    p->len = len;
    p->table = malloc(SCANNER_TABLE_ENOUGH(len) * sizeof *p->table);
    p->list = malloc(SCANNER_LIST_ENOUGH(len) * sizeof *p->list);
    p->area = malloc(SCANNER_AREA_ENOUGH(len));
    if (p->table == NULL || p->list == NULL || p->area == NULL)
        exit(2);
    part(plain_open(p, len) == SCANNER_OK, "a source opens");
    part(plain_open(p, p->chars) == SCANNER_OK, "a source opens in its number of characters");
}

static void plain_free(struct plain *p)
{
    free(p->table);
    free(p->list);
    free(p->area);
}

static void plain_scan(struct plain *p)
{
    part(scanner_scan(p->src, p->len, p->state, SCANNER_STATE_LEN,
                      p->table, SCANNER_TABLE_ENOUGH(p->len), p->list, SCANNER_LIST_ENOUGH(p->len),
                      p->area, SCANNER_AREA_ENOUGH(p->len), p->token, SCANNER_TOKEN_LEN)
             == SCANNER_OK, "lengths that always suffice");
}

/* The byte at which a character starts; the offsets asked for never fall. */
static size_t byte_of(struct plain *p, size_t offset)
{
    while (p->offset < offset) {
        do
            p->byte++;
        while (p->byte < p->len && (p->src[p->byte] & 0xc0) == 0x80);
        p->offset++;
    }
    return p->byte;
}

static int equal(struct scanner_bytes a, struct scanner_bytes b)
{
    return a.len == b.len && memcmp(a.start, b.start, a.len) == 0;
}

/* The token of the plain scan and that of the struct are the same. */
static void compare_tokens(struct plain *p, const struct scanner_token *token)
{
    const size_t *numbers = p->token;
    const size_t *text = numbers + SCANNER_TOKEN_TEXT_IN_AREA;
    const size_t *value = numbers + SCANNER_TOKEN_VALUE_IN_AREA;
    size_t place[SCANNER_POSITION_LEN];
    part(token->kind == numbers[SCANNER_TOKEN_KIND], "the kind");
    part((size_t)token->inserted == numbers[SCANNER_TOKEN_INSERTED], "the inserted semicolon");
    part(token->position == numbers[SCANNER_TOKEN_POSITION], "the position");
    part(token->code == numbers[SCANNER_TOKEN_CODE], "the code point");
    part(equal(token->text, scanner_part(text, p->src, p->area)), "the text");
    part(equal(token->value, scanner_part(value, p->src, p->area)), "the value");
    part(scanner_position(p->state, SCANNER_STATE_LEN, p->table, SCANNER_TABLE_ENOUGH(p->len),
                          token->position, place, SCANNER_POSITION_LEN) == SCANNER_OK, "a place");
    part(token->line == place[SCANNER_LINE], "the line");
    part(token->column == place[SCANNER_COLUMN], "the column");
    part(token->start == byte_of(p, token->position), "the first byte");
    part(token->end == p->state[SCANNER_STATE_PLACE], "the byte after the last");
}

/* So are line count and errors. */
static void compare_answers(struct plain *p, struct scanner *s)
{
    size_t i, numbers[SCANNER_ERROR_LEN];
    part(scanner_lines(s) == p->state[SCANNER_STATE_LINES], "the line count");
    part(scanner_errors(s) == p->state[SCANNER_STATE_ERRORS], "the error count");
    for (i = 0; i <= p->state[SCANNER_STATE_ERRORS]; i++) {
        struct scanner_error_record error = scanner_error_at(s, i);
        scanner_error(p->state, SCANNER_STATE_LEN, p->list, SCANNER_LIST_ENOUGH(p->len), i,
                      numbers, SCANNER_ERROR_LEN);
        part(error.offset == numbers[SCANNER_OFFSET] && error.number == numbers[SCANNER_NUMBER]
                 && error.line == numbers[SCANNER_LINE] && error.column == numbers[SCANNER_COLUMN],
             "an error");
    }
}

/*
 * Reads a source to EOF, and past it, in both ways. Line count and errors are asked for after each
 * `often` tokens, and not before EOF if it is 0. They are asked for before the token is compared:
 * its text must outlast the question.
 */
static void compare_bytes(const uint8_t *src, size_t len, size_t often)
{
    struct plain p;
    struct scanner s;
    struct scanner_token token;
    size_t given = 0, ends = 0;
    plain_init(&p, src, len);
    part(scanner_init(&s, src, len) == SCANNER_OK, "an init");
    part(s.characters == p.chars, "the number of characters");
    while (ends < 3) {
        plain_scan(&p);
        part(scanner_next(&s, &token) == SCANNER_OK, "a token");
        given++;
        ends += token.kind == SCANNER_KIND_EOF;
        if (often > 0 && given % often == 0)
            compare_answers(&p, &s);
        compare_tokens(&p, &token);
    }
    compare_answers(&p, &s);
    scanner_free(&s);
    plain_free(&p);
}

static void compare(const char *text, size_t often)
{
    compare_bytes((const uint8_t *)text, strlen(text), often);
}

static const char *const pieces[] = {
    "x", "lane", "quota_1", "if", "return", "break", "fallthrough", "range", "+", "&^=", "...",
    "..", ".", ";", "(", ")", "{", "}", "++", "1", "017", "0_7", "072.4", "08", "0X1F", "0b2",
    "1__0", "1E5", "1e", "3.5i", "'x'", "''", "'ab'", "'\\n'", "'\xc3\xa9'", "'", "\"a\"", "\"a\\n\"",
    "\"\\400\"", "\"\\q", "\"\xe2\x82\xac\\x41\"", "\"", "`raw`", "`a\r\nb`", "`", "// c\n",
    "// c\r\n", "//\xc3\xa9\r", "/* c */", "/* a\r\n\xf0\x9f\xa7\xac */", "/*", "*\r/", "\n",
    "\n\n", "\r\n", " ", "\t", " \n ", "\xc3\xa9", "\xf0\x9f\xa7\xac", "#", "\\", "\x7f",
};

static uint64_t seed = 17;

static size_t below(size_t limit)
{
    seed = seed * 6364136223846793005u + 1442695040888963407u;
    return (size_t)(seed >> 33) % limit;
}

/* Random texts of up to 300 pieces, many of them parted by blanks. */
static void test_random(size_t rounds)
{
    char text[300 * 16];
    size_t round, i, count;
    for (round = 0; round < rounds; round++) {
        text[0] = 0;
        count = below(300);
        for (i = 0; i < count; i++) {
            strcat(text, pieces[below(sizeof pieces / sizeof *pieces)]);
            if (below(3) > 0)
                strcat(text, below(4) > 0 ? " " : "\n");
        }
        compare(text, below(2) > 0 ? below(80) : below(4));
    }
    check(failed == 0, "random texts, beside the plain functions");
}

static void test_texts(void)
{
    static const char *const texts[] = {
        "", "\n", " \r\n\t", "x", "x\n", "x // c", "x // c\r", "x /* c */\n", "x /* \r */ y", "08",
        "`\r\n`", "`\r", "\"\\x41\"", "/*\r\n*/ 017 /*\r*/", "x/*", ";", "if", "\xc3\xa9 017",
        "a\n\n\nb\n", "'", "0x", "1e", "..", "return", "a\r\n// c\r\n017\r\n",
    };
    size_t i, often;
    for (i = 0; i < sizeof texts / sizeof *texts; i++) {
        for (often = 0; often < 4; often++)
            compare(texts[i], often);
        check(failed == 0, texts[i]);
    }
}

/* A text of one piece, again and again. */
static char *repeat(const char *piece, size_t times, size_t *len)
{
    size_t i, width = strlen(piece);
    char *text = malloc(width * times + 1);
    if (text == NULL)
        exit(2);
    for (i = 0; i < times; i++)
        memcpy(text + i * width, piece, width);
    text[width * times] = 0;
    *len = width * times;
    return text;
}

/* Scans a text to EOF, and leaves the scanner open. */
static void read_all(struct scanner *s, const char *text, size_t len)
{
    struct scanner_token token;
    part(scanner_init(s, (const uint8_t *)text, len) == SCANNER_OK, "an init");
    do
        part(scanner_next(s, &token) == SCANNER_OK, "a token");
    while (token.kind != SCANNER_KIND_EOF);
}

static void test_growth(void)
{
    struct scanner s;
    size_t len;
    char *text = repeat("\n", 4000, &len);
    compare(text, 0);
    read_all(&s, text, len);
    check(s.table_len == SCANNER_TABLE_ENOUGH(len) && s.list_len == 32 && s.area_len == 512,
          "the table alone has grown, as far as it can");
    scanner_free(&s);
    free(text);
    text = repeat("'' ", 100, &len);
    compare(text, 3);
    read_all(&s, text, len);
    check(s.list_len == 512 && scanner_errors(&s) == 100, "the list has grown four times");
    scanner_free(&s);
    free(text);
    text = repeat("08_\"\n", 200, &len);
    compare(text, 0);
    read_all(&s, text, len);
    check(scanner_errors(&s) == 600, "three errors for each five bytes");
    scanner_free(&s);
    free(text);
    text = repeat("a\r", 330, &len);
    text[0] = text[len - 1] = '`';
    compare(text, 1);
    memset(text + 2, 'c', len - 4); /* one CR is left */
    compare(text, 1);
    read_all(&s, text, len);
    check(s.area_len == SCANNER_AREA_ENOUGH(len), "the area has grown, as far as it can");
    scanner_free(&s);
    free(text);
}

/* The longest source, and one of many lines with an error each. */
static void test_long(void)
{
    size_t len;
    char *text = repeat("\n", SCANNER_MAX_SOURCE, &len);
    compare(text, 0);
    free(text);
    text = repeat("x+\n/*\r*/08 \"\\n\"\xc3\xa9\n", 4000, &len);
    compare(text, 0);
    free(text);
    check(failed == 0, "long sources");
}

static void test_no_memory(void)
{
    struct scanner s;
    struct scanner_token token;
    size_t i, len;
    char *text = repeat("''", 9, &len);
    for (allocations = 0; allocations < 3; allocations++) {
        i = allocations;
        check(scanner_init(&s, (const uint8_t *)text, len) == SCANNER_NO_MEMORY, "255 from init");
        check(scanner_next(&s, &token) == SCANNER_NO_MEMORY, "255 again");
        scanner_free(&s);
        allocations = i;
    }
    check(scanner_init(&s, (const uint8_t *)text, len) == SCANNER_OK, "three allocations do");
    allocations = 0;
    for (i = 0; i < 8; i++)
        part(scanner_next(&s, &token) == SCANNER_OK, "a token with an error");
    check(scanner_next(&s, &token) == SCANNER_NO_MEMORY, "255 from next");
    check(scanner_next(&s, &token) == SCANNER_NO_MEMORY, "255 from next again");
    check(scanner_errors(&s) == 8, "the errors so far");
    allocations = SIZE_MAX;
    check(scanner_next(&s, &token) == SCANNER_OK && token.position == 16, "on with more memory");
    check(scanner_errors(&s) == 9, "one error more");
    scanner_free(&s);
    free(text);
}

/* A refused init leaves a scanner that gives nothing, and may be freed twice. */
static void refuse(const char *text, size_t len, uint8_t number)
{
    struct scanner s;
    struct scanner_token token;
    check(scanner_init(&s, (const uint8_t *)text, len) == number, "a refused init");
    check(number != SCANNER_NOT_UTF8 || s.bad_place == 1, "the place of the bad byte");
    check(scanner_next(&s, &token) == number, "the same refusal from next");
    check(scanner_errors(&s) == 0 && scanner_error_at(&s, 0).number == 0 && scanner_lines(&s) == 0,
          "no errors and no lines");
    scanner_free(&s);
    scanner_free(&s);
    check(scanner_next(&s, &token) == SCANNER_DOES_NOT_FIT, "6 from a freed scanner");
}

static void test_refusals(void)
{
    size_t len;
    char *text = repeat("x", SCANNER_MAX_SOURCE + 1, &len);
    refuse("a\xff", 2, SCANNER_NOT_UTF8);
    refuse(text, len, SCANNER_TOO_LONG);
    free(text);
}

static void test_sizes(void)
{
    struct scanner s;
    struct scanner_token token;
    size_t answer[SCANNER_POSITION_LEN];
    const uint8_t *src = (const uint8_t *)"x\n\xc3\xa9\n017\n";
    check(scanner_init_with_size(&s, src, 9, 5, 7) == SCANNER_SIZE, "3, a size that is too small");
    scanner_free(&s);
    check(scanner_init_with_size(&s, src, 9, 5, 9) == SCANNER_OK && s.characters == 8, "base 5");
    do
        part(scanner_next(&s, &token) == SCANNER_OK, "a token");
    while (token.kind != SCANNER_KIND_INT);
    check(token.position == 9 && token.line == 3 && token.column == 1, "position, line and column");
    check(token.start == 5 && token.end == 8 && same(token.text, "0o17"), "bytes and text");
    check(scanner_lines(&s) == 3 && same(token.text, "0o17"), "a text outlasts a question");
    check(scanner_position(s.state, SCANNER_STATE_LEN, s.table, s.table_len, 7,
                           answer, SCANNER_POSITION_LEN) == SCANNER_OK
              && answer[SCANNER_LINE] == 2, "the plain functions on a settled scanner");
    do
        part(scanner_next(&s, &token) == SCANNER_OK, "a token");
    while (token.kind != SCANNER_KIND_EOF);
    check(scanner_lines(&s) == 4, "the last LF starts a line in a larger size");
    scanner_free(&s);
}

/* Questions make the batches short, and they get longer again. */
static void test_batches(void)
{
    struct scanner s;
    struct scanner_token token;
    size_t i, len;
    char *text = repeat("x+", 200, &len);
    part(scanner_init(&s, (const uint8_t *)text, len) == SCANNER_OK, "an init");
    part(scanner_next(&s, &token) == SCANNER_OK, "a token");
    check(s.count == SCANNER_BATCH && s.given == 1, "a long batch");
    check(scanner_errors(&s) == 0 && s.count == 1, "what was read ahead is dropped");
    for (i = 1; i < SCANNER_BATCH; i++)
        part(scanner_next(&s, &token) == SCANNER_OK && token.position == i, "a token");
    check(s.count == 32, "batches of 1, 2, 4, 8, 16 and 32");
    scanner_free(&s);
    free(text);
}

/* An error is one of the tokens given, also where it is the first thing asked. */
static void test_error_first(void)
{
    struct scanner s;
    struct scanner_token token;
    const char *text = "x '' ''";
    part(scanner_init(&s, (const uint8_t *)text, strlen(text)) == SCANNER_OK, "an init");
    part(scanner_next(&s, &token) == SCANNER_OK, "a token");
    check(scanner_error_at(&s, 0).number == 0, "no error of a token that was not given");
    part(scanner_next(&s, &token) == SCANNER_OK, "a token");
    check(scanner_error_at(&s, 0).number == SCANNER_ERROR_CHAR, "the error of a token given");
    check(scanner_error_at(&s, 1).number == 0, "and no other");
    scanner_free(&s);
}

static void test_empty(void)
{
    struct scanner s;
    struct scanner_token token;
    check(scanner_init(&s, NULL, 0) == SCANNER_OK && scanner_next(&s, &token) == SCANNER_OK
              && token.kind == SCANNER_KIND_EOF && token.start == 0 && token.end == 0, "no source");
    scanner_free(&s);
}

int main(int argc, char **argv)
{
    test_texts();
    test_growth();
    test_no_memory();
    test_refusals();
    test_sizes();
    test_batches();
    test_error_first();
    test_empty();
    test_random(argc > 1 ? strtoul(argv[1], NULL, 10) : 4000);
    if (argc == 1)
        test_long();
    return counted();
}
