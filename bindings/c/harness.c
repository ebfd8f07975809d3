/*
 * Calls the functions of scanner.h with forged states, short buffers and random bytes, and checks each call: a
 * refused one changed nothing, an accepted one only what it may change, and none wrote outside the lent lengths.
 * Many scans in one call leave what as many scans of one token leave on copies.
 *
 * harness ROUNDS [exact]
 *
 * The same number of rounds makes the same calls. With `exact` each buffer has a block of memory of its own length,
 * for memcheck, which sees reads outside it, too; without, it has guard bytes around it.
 */
#include "scanner.h"

#include <stdio.h>
#include <stdlib.h>
#include <string.h>

enum { GUARD = 64, GUARD_BYTE = 0xd5, LIMIT = 64, ANSWERS = 10 };

static size_t guard = GUARD;
static unsigned long round_number, calls, scanned, batches, cut, failed;
static unsigned long answers[ANSWERS];

static void check(int holds, const char *what)
{
    if (holds)
        return;
    failed++;
    if (failed <= 20)
        printf("failed in round %lu: %s\n", round_number, what);
}

/* Random numbers: xorshift from a fixed seed. */
static uint64_t seed = 0x9e3779b97f4a7c15u;

static uint64_t draw(void)
{
    seed ^= seed << 13;
    seed ^= seed >> 7;
    seed ^= seed << 17;
    return seed;
}

static size_t below(size_t n)
{
    return (size_t)(draw() % n);
}

/* A number at an edge, or any. */
static size_t edge(size_t near)
{
    static const size_t edges[] = {0, 1, 2, 7, 10, 255, 1048576, 1048577, 4294967294u, 4294967295u, 4294967296u,
                                   (size_t)1 << 63, SIZE_MAX - 1, SIZE_MAX};
    switch (below(4)) {
    case 0:
        return edges[below(sizeof edges / sizeof *edges)];
    case 1:
        return near + below(3) - 1;
    case 2:
        return below(20);
    default:
        return (size_t)draw();
    }
}

/* A buffer to lend: its bytes, and what they were before the call. */
struct lent {
    uint8_t *block, *before;
    size_t bytes, width; /* of all elements, of one */
};

static void *new_block(size_t bytes)
{
    void *block = malloc(bytes);
    if (block == NULL && bytes == 0)
        block = malloc(1);
    if (block == NULL)
        abort();
    return block;
}

static struct lent make(size_t len, size_t width)
{
    struct lent b;
    b.bytes = len * width;
    b.width = width;
    b.block = new_block(b.bytes + 2 * guard);
    b.before = new_block(b.bytes);
    memset(b.block, GUARD_BYTE, b.bytes + 2 * guard);
    return b;
}

static void drop(struct lent *b)
{
    free(b->block);
    free(b->before);
}

static uint8_t *bytes_of(const struct lent *b)
{
    return b->block + guard;
}

static size_t *numbers_of(const struct lent *b)
{
    return (size_t *)(void *)(b->block + guard);
}

static size_t len_of(const struct lent *b)
{
    return b->bytes / b->width;
}

static void fill(struct lent *b)
{
    size_t i;
    for (i = 0; i < b->bytes; i++)
        bytes_of(b)[i] = (uint8_t)draw();
}

static void keep(struct lent *b)
{
    if (b->bytes > 0)
        memcpy(b->before, bytes_of(b), b->bytes);
}

static int same(const uint8_t *a, const uint8_t *b, size_t n)
{
    return n == 0 || memcmp(a, b, n) == 0;
}

static size_t least(size_t a, size_t b)
{
    return a < b ? a : b;
}

/* Nothing around the buffer has changed. */
static void check_guards(const struct lent *b)
{
    static uint8_t guards[GUARD];
    memset(guards, GUARD_BYTE, GUARD);
    check(same(b->block, guards, guard), "a byte before a buffer was written");
    check(same(bytes_of(b) + b->bytes, guards, guard), "a byte after a buffer was written");
}

/* The elements from `first` to the one before `end` alone may have changed, and nothing around the buffer. */
static void check_within(const struct lent *b, size_t first, size_t end, const char *what)
{
    size_t len = len_of(b), from = least(first, len) * b->width, to = least(end, len) * b->width;
    check_guards(b);
    check(same(bytes_of(b), b->before, from), what);
    check(same(bytes_of(b) + to, b->before + to, b->bytes - to), what);
}

static void check_kept(const struct lent *b, const char *what)
{
    check_within(b, 0, 0, what);
}

/* All that a call is lent. */
struct world {
    struct lent src, state, table, list, area, token, tokens, answer;
};

static struct lent *buffer(struct world *w, int i)
{
    struct lent *all[] = {&w->src, &w->state, &w->table, &w->list, &w->area, &w->token, &w->tokens, &w->answer};
    return all[i];
}

enum { BUFFERS = 8 };

static void keep_all(struct world *w)
{
    int i;
    for (i = 0; i < BUFFERS; i++)
        keep(buffer(w, i));
}

static void drop_all(struct world *w)
{
    int i;
    for (i = 0; i < BUFFERS; i++)
        drop(buffer(w, i));
}

/* Counts the answer, and checks that the function may give it. */
static void note(uint8_t answer, const char *allowed)
{
    calls++;
    check(answer < ANSWERS && strchr(allowed, '0' + answer) != NULL, "an answer that the function does not have");
    if (answer < ANSWERS)
        answers[answer]++;
}

/* A refused call: nothing changed, but for `free_answer` numbers of the answer. */
static void check_refused(struct world *w, size_t free_answer)
{
    int i;
    for (i = 0; i < BUFFERS - 1; i++)
        check_kept(buffer(w, i), "a refused call changed a buffer");
    check_within(&w->answer, 0, free_answer, "a refused call changed the answer");
}

/* An accepted query wrote `width` numbers of the answer and nothing else. */
static void check_query(struct world *w, uint8_t answer, size_t width)
{
    check_refused(w, answer == SCANNER_OK ? width : 0);
    check(answer == SCANNER_DOES_NOT_FIT || (len_of(&w->state) >= SCANNER_STATE_LEN && len_of(&w->answer) >= width),
          "6 for a short slice");
}

static uint8_t call_open(struct world *w, size_t base, size_t size)
{
    uint8_t answer;
    keep_all(w);
    answer = scanner_open(bytes_of(&w->src), len_of(&w->src), base, size, numbers_of(&w->table), len_of(&w->table),
                          numbers_of(&w->state), len_of(&w->state), numbers_of(&w->answer), len_of(&w->answer));
    note(answer, "012367");
    if (len_of(&w->state) < SCANNER_STATE_LEN || len_of(&w->answer) < 1)
        check(answer == SCANNER_DOES_NOT_FIT, "6 for a short slice");
    if (answer != SCANNER_OK) {
        check_refused(w, answer == SCANNER_NOT_UTF8 ? 1 : 0);
        return answer;
    }
    check_within(&w->state, 0, SCANNER_STATE_LEN, "more than a state was written");
    check_within(&w->table, 0, 1, "more than the first line start was written");
    check_within(&w->answer, 0, 1, "more than an answer was written");
    check_kept(&w->src, "the source was written");
    check_kept(&w->list, "opening wrote to the list");
    check_kept(&w->area, "opening wrote to the area");
    check_kept(&w->token, "opening wrote to the token");
    check_kept(&w->tokens, "opening wrote to the tokens");
    check(numbers_of(&w->answer)[0] <= len_of(&w->src), "more characters than bytes");
    return answer;
}

/* A part of a token lies in its buffer; the greatest of `end` and its own end, if it is in the area. */
static size_t check_part(struct world *w, const size_t *part, size_t end)
{
    size_t len = part[0] != 0 ? len_of(&w->area) : len_of(&w->src);
    check(part[0] <= 1 && part[1] <= part[2] && part[2] <= len, "a part outside its buffer");
    return part[0] != 0 && part[2] > end ? part[2] : end;
}

/* The state's line is the line count, and starts at the last line start; a new error has line and column from it. */
static void check_line(struct world *w)
{
    const size_t *state = numbers_of(&w->state), *old = (const size_t *)(const void *)w->state.before;
    size_t lines = state[SCANNER_STATE_LINES], start = state[SCANNER_STATE_LINE_START];
    const size_t *error = numbers_of(&w->list) + old[SCANNER_STATE_ERRORS] * SCANNER_ERROR_LEN;
    check(state[SCANNER_STATE_LINE] == lines, "a line that is not the line count");
    check(start == numbers_of(&w->table)[lines - 1] && start <= state[SCANNER_STATE_OFFSET],
          "a line start that is not the last");
    if (state[SCANNER_STATE_ERRORS] > old[SCANNER_STATE_ERRORS])
        check(error[SCANNER_OFFSET] == state[SCANNER_STATE_OFFSET] && error[SCANNER_LINE] == lines
                  && error[SCANNER_COLUMN] == state[SCANNER_STATE_OFFSET] - start + 1,
              "an error that is not on the state's line");
}

/* An accepted scan: what it wrote, and that state and token are sound. */
static void check_scanned(struct world *w)
{
    const size_t *token = numbers_of(&w->token), *state = numbers_of(&w->state);
    const size_t *old = (const size_t *)(const void *)w->state.before;
    size_t end = check_part(w, token + SCANNER_TOKEN_TEXT_IN_AREA, 0);
    end = check_part(w, token + SCANNER_TOKEN_VALUE_IN_AREA, end);
    check(token[SCANNER_TOKEN_KIND] < SCANNER_KINDS && token[SCANNER_TOKEN_INSERTED] <= 1, "no token");
    check(state[SCANNER_STATE_PLACE] >= old[SCANNER_STATE_PLACE] && state[SCANNER_STATE_PLACE] <= len_of(&w->src),
          "a place outside the source");
    check(state[SCANNER_STATE_OFFSET] <= state[SCANNER_STATE_SIZE], "an offset above the size");
    check(state[SCANNER_STATE_LINES] <= len_of(&w->table), "a line count above the table");
    check(state[SCANNER_STATE_ERRORS] - old[SCANNER_STATE_ERRORS] <= 1, "more than one error");
    check_line(w);
    check_kept(&w->src, "the source was written");
    check_within(&w->state, 0, SCANNER_STATE_LEN, "more than a state was written");
    check_within(&w->token, 0, SCANNER_TOKEN_LEN, "more than a token was written");
    check_within(&w->table, old[SCANNER_STATE_LINES], state[SCANNER_STATE_LINES], "an older line start was written");
    check_within(&w->list, old[SCANNER_STATE_ERRORS] * SCANNER_ERROR_LEN, state[SCANNER_STATE_ERRORS] * SCANNER_ERROR_LEN,
                 "an older error was written");
    check_within(&w->area, 0, end, "the area was written after text and value");
    check_kept(&w->tokens, "a scan wrote to the tokens");
    check_kept(&w->answer, "a scan wrote to the answer");
}

static uint8_t call_scan(struct world *w)
{
    uint8_t answer;
    keep_all(w);
    answer = scanner_scan(bytes_of(&w->src), len_of(&w->src), numbers_of(&w->state), len_of(&w->state),
                          numbers_of(&w->table), len_of(&w->table), numbers_of(&w->list), len_of(&w->list),
                          bytes_of(&w->area), len_of(&w->area), numbers_of(&w->token), len_of(&w->token));
    note(answer, "036789");
    if (len_of(&w->state) < SCANNER_STATE_LEN || len_of(&w->token) < SCANNER_TOKEN_LEN)
        check(answer == SCANNER_DOES_NOT_FIT, "6 for a short slice");
    scanned += answer == SCANNER_OK;
    if (answer == SCANNER_OK)
        check_scanned(w);
    else
        check_refused(w, 0);
    return answer;
}

/* The same numbers and bytes in buffers of their own. */
static struct world copy_of(struct world *w)
{
    struct world copy;
    int i;
    for (i = 0; i < BUFFERS; i++) {
        struct lent *b = buffer(w, i);
        *buffer(&copy, i) = make(len_of(b), b->width);
        memcpy(bytes_of(buffer(&copy, i)), bytes_of(b), b->bytes);
    }
    return copy;
}

/* Whether many scans stop after a token: it shows something from the area, or is EOF. */
static int is_last(const size_t *token)
{
    return token[SCANNER_TOKEN_TEXT_IN_AREA] != 0 || token[SCANNER_TOKEN_VALUE_IN_AREA] != 0
           || token[SCANNER_TOKEN_KIND] == SCANNER_KIND_EOF;
}

/* One scan to a place among `tokens`. */
static uint8_t scan_to(struct world *w, size_t *token)
{
    return scanner_scan(bytes_of(&w->src), len_of(&w->src), numbers_of(&w->state), len_of(&w->state),
                        numbers_of(&w->table), len_of(&w->table), numbers_of(&w->list), len_of(&w->list),
                        bytes_of(&w->area), len_of(&w->area), token, SCANNER_TOKEN_LEN);
}

/* Makes many scans one by one, each token in its place, up to a last one or before one that is refused; how many were given. */
static uint8_t scan_each(struct world *w, size_t *given)
{
    size_t room = len_of(&w->tokens) / SCANNER_TOKEN_LEN, *token = numbers_of(&w->tokens);
    uint8_t answer = SCANNER_OK;
    for (*given = 0; *given < room; token += SCANNER_TOKEN_LEN) {
        answer = scan_to(w, token);
        *given += answer == SCANNER_OK;
        if (answer != SCANNER_OK || is_last(token))
            break;
    }
    cut += *given > 0 && answer != SCANNER_OK;
    return *given > 0 ? SCANNER_OK : answer;
}

/* Many scans in one call left what they leave one by one in a copy. */
static void check_many(struct world *w, struct world *copy, uint8_t answer)
{
    size_t given;
    int i;
    check(scan_each(copy, &given) == answer, "another answer than one by one");
    if (answer == SCANNER_OK)
        numbers_of(&copy->answer)[0] = given;
    for (i = 0; i < BUFFERS; i++) {
        const struct lent *b = buffer(w, i);
        check_guards(b);
        check(same(bytes_of(b), bytes_of(buffer(copy, i)), b->bytes), "another buffer than one by one");
    }
}

static uint8_t call_many(struct world *w)
{
    struct world copy = copy_of(w);
    uint8_t answer;
    keep_all(w);
    answer = scanner_scan_many(bytes_of(&w->src), len_of(&w->src), numbers_of(&w->state), len_of(&w->state),
                               numbers_of(&w->table), len_of(&w->table), numbers_of(&w->list), len_of(&w->list),
                               bytes_of(&w->area), len_of(&w->area), numbers_of(&w->tokens), len_of(&w->tokens),
                               numbers_of(&w->answer), len_of(&w->answer));
    note(answer, "036789");
    batches += answer == SCANNER_OK;
    if (len_of(&w->state) < SCANNER_STATE_LEN || len_of(&w->answer) < 1 || len_of(&w->tokens) < SCANNER_TOKEN_LEN)
        check(answer == SCANNER_DOES_NOT_FIT, "6 for a short slice");
    else
        check_many(w, &copy, answer);
    if (answer != SCANNER_OK)
        check_refused(w, 0);
    drop_all(&copy);
    return answer;
}

static void call_position(struct world *w, size_t position)
{
    uint8_t answer;
    keep_all(w);
    answer = scanner_position(numbers_of(&w->state), len_of(&w->state), numbers_of(&w->table), len_of(&w->table), position,
                              numbers_of(&w->answer), len_of(&w->answer));
    note(answer, "046");
    check_query(w, answer, SCANNER_POSITION_LEN);
}

static void call_line_start(struct world *w, size_t line)
{
    uint8_t answer;
    keep_all(w);
    answer = scanner_line_start(numbers_of(&w->state), len_of(&w->state), numbers_of(&w->table), len_of(&w->table), line,
                                numbers_of(&w->answer), len_of(&w->answer));
    note(answer, "056");
    check_query(w, answer, 1);
}

static void call_error(struct world *w, size_t index)
{
    uint8_t answer;
    keep_all(w);
    answer = scanner_error(numbers_of(&w->state), len_of(&w->state), numbers_of(&w->list), len_of(&w->list), index,
                           numbers_of(&w->answer), len_of(&w->answer));
    note(answer, "06");
    check_query(w, answer, SCANNER_ERROR_LEN);
}

/* Text or value of a token, whose part starts at an index: it is answered where it lies in its buffer. */
static void call_part(struct world *w, size_t at)
{
    const size_t *token = numbers_of(&w->token), *part = numbers_of(&w->answer);
    size_t len;
    int fits;
    uint8_t answer;
    keep_all(w);
    answer = (at == SCANNER_TOKEN_TEXT_IN_AREA ? scanner_text : scanner_value)(
        bytes_of(&w->src), len_of(&w->src), bytes_of(&w->area), len_of(&w->area), token, len_of(&w->token),
        numbers_of(&w->answer), len_of(&w->answer));
    note(answer, "06");
    check_refused(w, answer == SCANNER_OK ? SCANNER_PART_LEN : 0);
    if (len_of(&w->token) < SCANNER_TOKEN_LEN || len_of(&w->answer) < SCANNER_PART_LEN) {
        check(answer == SCANNER_DOES_NOT_FIT, "6 for a short slice");
        return;
    }
    len = token[at] != 0 ? len_of(&w->area) : len_of(&w->src);
    fits = token[at + 1] <= token[at + 2] && token[at + 2] <= len;
    check(answer == (fits ? SCANNER_OK : SCANNER_DOES_NOT_FIT), "6 for a part outside its buffer, and only then");
    if (fits)
        check(part[0] == (token[at] != 0) && part[1] == token[at + 1] && part[2] == token[at + 2], "another part");
}

/* Bytes of a source: pieces of Go; in some sources random bytes and pieces that are not UTF-8, too. */
static void write_source(struct lent *src)
{
    static const char *const pieces[] = {
        "x", "017", "07.5", "0_600", "0X1F", "08", "1__0", "1E3", "'a'", "''", "'ab'", "\"a\\n\"", "\"\\400\"",
        "\"\\k", "`a\r\n`", "`", "// c\r\n", "/* c */", "/*\n*/", "/*", "..", "...", "<<=", "return", ")", "\n", "\r\n",
        " ", "\t", "~", "\xc3\xa9", "\xf0\x9f\xa7\xac", "\xff", "\xed\xa0\x80"};
    enum { NOT_UTF8 = 2 };
    size_t at = 0, wild = below(6) == 0, count = sizeof pieces / sizeof *pieces - (wild ? 0 : NOT_UTF8);
    while (at < src->bytes) {
        const char *piece = pieces[below(count)];
        size_t len = strlen(piece);
        if (wild && below(3) == 0) {
            bytes_of(src)[at++] = (uint8_t)draw();
        } else if (len <= src->bytes - at) {
            memcpy(bytes_of(src) + at, piece, len);
            at += len;
        } else {
            bytes_of(src)[at++] = ' ';
        }
    }
}

/* A length: in most rounds enough, else from 0 to `most`. */
static size_t length(size_t enough, size_t most)
{
    return below(10) != 0 ? enough : below(most + 1);
}

static struct world new_world(void)
{
    struct world w;
    int i;
    w.src = make(below(LIMIT), 1);
    w.state = make(length(SCANNER_STATE_LEN, 12), sizeof(size_t));
    w.table = make(length(LIMIT + 1, 8), sizeof(size_t));
    w.list = make(length(4 * LIMIT, 12), sizeof(size_t));
    w.area = make(length(2 * LIMIT, 16), 1);
    w.token = make(length(SCANNER_TOKEN_LEN, 12), sizeof(size_t));
    w.tokens = make(below(8 * SCANNER_TOKEN_LEN), sizeof(size_t));
    w.answer = make(length(SCANNER_ERROR_LEN, 6), sizeof(size_t));
    for (i = 1; i < BUFFERS; i++)
        fill(buffer(&w, i));
    write_source(&w.src);
    return w;
}

/* Numbers that a scan may have left, or almost: some are forged. */
static void forge(struct world *w)
{
    size_t changes = below(3), i;
    if (below(8) == 0)
        for (i = 0; i < len_of(&w->state); i++)
            numbers_of(&w->state)[i] = edge(len_of(&w->src));
    while (changes-- > 0 && len_of(&w->state) > 0) {
        i = below(len_of(&w->state));
        numbers_of(&w->state)[i] = edge(numbers_of(&w->state)[i]);
    }
    if (below(6) == 0 && len_of(&w->table) > 0)
        numbers_of(&w->table)[below(len_of(&w->table))] = edge(len_of(&w->src));
    if (below(2) == 0 && len_of(&w->token) > 0)
        numbers_of(&w->token)[below(len_of(&w->token))] = edge(below(2) == 0 ? len_of(&w->src) : len_of(&w->area));
    if (below(6) == 0 && len_of(&w->list) > 0)
        numbers_of(&w->list)[below(len_of(&w->list))] = edge(len_of(&w->src));
}

static void ask(struct world *w)
{
    size_t near = len_of(&w->state) > 0 ? numbers_of(&w->state)[0] + below(LIMIT) : 0;
    call_position(w, edge(near));
    call_line_start(w, edge(below(LIMIT)));
    call_error(w, edge(below(4)));
    call_part(w, SCANNER_TOKEN_TEXT_IN_AREA);
    call_part(w, SCANNER_TOKEN_VALUE_IN_AREA);
}

/* One token, or many. */
static void scan_some(struct world *w)
{
    if (below(3) == 0)
        call_many(w);
    else
        call_scan(w);
}

/* An opening, a few scans, then forged numbers between scans and questions. */
static void one_round(void)
{
    struct world w = new_world();
    size_t scans = below(6), i;
    uint8_t answer = below(3) == 0 ? call_open(&w, edge(0), edge(len_of(&w.src)))
                                   : call_open(&w, below(9), len_of(&w.src) + below(2));
    if (answer != SCANNER_OK)
        call_open(&w, 0, len_of(&w.src));
    for (i = 0; i < scans; i++)
        scan_some(&w);
    ask(&w);
    for (i = 0; i < 3; i++) {
        forge(&w);
        scan_some(&w);
        ask(&w);
    }
    drop_all(&w);
}

/* Every length of state, token, tokens and answer from 0 to 12, on a text that is scanned if they suffice. */
static void all_lengths(size_t state, size_t token)
{
    static const size_t fresh[SCANNER_STATE_LEN] = {0, 5, 0, 0, 0, 1, 0, 1, 0};
    struct world w;
    size_t i;
    w.src = make(5, 1);
    w.state = make(state, sizeof(size_t));
    w.table = make(2, sizeof(size_t));
    w.list = make(4, sizeof(size_t));
    w.area = make(8, 1);
    w.token = make(token, sizeof(size_t));
    w.tokens = make(token, sizeof(size_t));
    w.answer = make(token, sizeof(size_t));
    memcpy(bytes_of(&w.src), "017 x", 5);
    check(call_open(&w, 0, 5) == (state < SCANNER_STATE_LEN || token < 1 ? SCANNER_DOES_NOT_FIT : SCANNER_OK),
          "a length at opening");
    for (i = 0; i < state && i < SCANNER_STATE_LEN; i++)
        numbers_of(&w.state)[i] = fresh[i];
    numbers_of(&w.table)[0] = 0;
    call_position(&w, 0);
    call_line_start(&w, 1);
    call_error(&w, 0);
    call_part(&w, SCANNER_TOKEN_TEXT_IN_AREA);
    call_part(&w, SCANNER_TOKEN_VALUE_IN_AREA);
    check(call_scan(&w) == (state < SCANNER_STATE_LEN || token < SCANNER_TOKEN_LEN ? SCANNER_DOES_NOT_FIT : SCANNER_OK),
          "a length at a scan");
    check(call_many(&w) == (state < SCANNER_STATE_LEN || token < SCANNER_TOKEN_LEN ? SCANNER_DOES_NOT_FIT : SCANNER_OK),
          "a length at many scans");
    drop_all(&w);
}

/* Every small table, list and area on a text whose second token needs two line starts, an error and an area. */
static void small_buffers(size_t table, size_t list, size_t area)
{
    struct world w;
    uint8_t expected = table < 2  ? SCANNER_TABLE_FULL
                       : list < 4 ? SCANNER_LIST_FULL
                       : area < 2 ? SCANNER_AREA_FULL
                                  : SCANNER_OK;
    w.src = make(6, 1);
    w.state = make(SCANNER_STATE_LEN, sizeof(size_t));
    w.table = make(table, sizeof(size_t));
    w.list = make(list, sizeof(size_t));
    w.area = make(area, 1);
    w.token = make(SCANNER_TOKEN_LEN, sizeof(size_t));
    w.tokens = make(3 * SCANNER_TOKEN_LEN, sizeof(size_t));
    w.answer = make(1, sizeof(size_t));
    memcpy(bytes_of(&w.src), "+\n08 x", 6);
    if (table < 1) {
        check(call_open(&w, 0, 6) == SCANNER_TABLE_FULL, "no table at opening");
    } else {
        check(call_open(&w, 0, 6) == SCANNER_OK, "a table at opening");
        check(call_many(&w) == SCANNER_OK, "the first token, which needs none of them");
        if (expected != SCANNER_OK)
            check(call_many(&w) == expected, "the first buffer that is too small for many scans");
        check(numbers_of(&w.answer)[0] == (expected == SCANNER_OK ? 2 : 1), "a token before it, or one more");
        call_open(&w, 0, 6);
        check(call_scan(&w) == SCANNER_OK, "a token that needs nothing");
        check(call_scan(&w) == expected, "the first buffer that is too small");
    }
    drop_all(&w);
}

/* Any length above the limit is refused, by 2. */
static void too_long(void)
{
    struct world w = new_world();
    drop(&w.src);
    w.src = make(SCANNER_MAX_SOURCE + 1, 1);
    if (len_of(&w.state) >= SCANNER_STATE_LEN && len_of(&w.answer) >= 1)
        check(call_open(&w, 0, SCANNER_MAX_SOURCE + 1) == SCANNER_TOO_LONG, "2 above the limit");
    drop_all(&w);
}

static void lengths(void)
{
    size_t a, b, c;
    too_long();
    for (a = 0; a <= 12; a++)
        for (b = 0; b <= 12; b++)
            all_lengths(a, b);
    for (a = 0; a <= 3; a++)
        for (b = 0; b <= 9; b++)
            for (c = 0; c <= 4; c++)
                small_buffers(a, b, c);
}

int main(int argc, char **argv)
{
    unsigned long rounds = argc > 1 ? strtoul(argv[1], NULL, 10) : 0;
    int i;
    if (rounds == 0 || (argc > 2 && strcmp(argv[2], "exact") != 0)) {
        fprintf(stderr, "usage: harness ROUNDS [exact]\n");
        return 2;
    }
    if (argc > 2)
        guard = 0;
    lengths();
    for (round_number = 1; round_number <= rounds; round_number++)
        one_round();
    printf("%lu rounds, %lu calls, %lu accepted, ", rounds, calls, answers[0]);
    printf("%lu of them scans, %lu many scans; ", scanned, batches);
    printf("%lu many scans stopped before a refusal; refused by", cut);
    for (i = 1; i < ANSWERS; i++)
        printf("%s %d: %lu", i == 1 ? "" : ",", i, answers[i]);
    printf("; %lu checks failed\n", failed);
    return failed != 0;
}
