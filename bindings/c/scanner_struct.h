/*
 * struct scanner: the recipe scanner with buffers of its own, for programs in C and C++.
 *
 *     struct scanner s;
 *     struct scanner_token token;
 *     uint8_t refusal = scanner_init(&s, src, len);
 *     while (refusal == SCANNER_OK && (refusal = scanner_next(&s, &token)) == SCANNER_OK
 *            && token.kind != SCANNER_KIND_EOF) {
 *         ...
 *     }
 *     scanner_free(&s);
 *
 * It is made of the plain functions of scanner.h. It scans up to SCANNER_BATCH tokens in one call
 * of the library, and enlarges line table, error list and text area when they are full. The errors
 * and lines that it tells are always those of the tokens given so far.
 *
 * The source is not copied: it must stay as it is until the last use of the scanner. A struct
 * scanner keeps no pointer into itself, but it owns memory: pass it by pointer, and free it once.
 */
#ifndef SCANNER_STRUCT_H
#define SCANNER_STRUCT_H

#include "scanner.h"

#include <stdlib.h>
#include <string.h>

#ifdef __cplusplus
extern "C" {
#endif

/* The most tokens that are scanned in one call of the library. */
#define SCANNER_BATCH 64

/* A token. */
struct scanner_token {
    size_t kind;                /* one of enum scanner_kind */
    int inserted;               /* 1: a semicolon that is not written in the source */
    size_t position;            /* base + offset of its first character */
    size_t line, column;        /* from 1; columns count characters */
    uint32_t code;              /* the code point of a CHAR, else 0 */
    struct scanner_bytes text;  /* empty for operators, keywords and EOF */
    struct scanner_bytes value; /* the content of a STRING, else empty */
    size_t start, end;          /* it was read from these bytes of the source: start up to end */
};

/* An error of the source. */
struct scanner_error_record {
    size_t offset;              /* how many characters were read when it was found */
    size_t line, column;        /* from 1; columns count characters */
    size_t number;              /* one of enum scanner_error_number; 0: there is no such error */
};

/*
 * A scanner. Its members are for reading only. `state` and `table` can be lent to the plain
 * functions scanner_position and scanner_line_start; call scanner_settle first.
 */
struct scanner {
    const uint8_t *src;
    size_t len;
    size_t characters;          /* of the source */
    size_t bad_place;           /* after SCANNER_NOT_UTF8: the place of a bad byte */
    size_t state[SCANNER_STATE_LEN];
    size_t *table, *list;
    uint8_t *area;
    size_t table_len, list_len, area_len;
    uint8_t refusal;            /* why there are no buffers */
    size_t line, end;           /* of the last token given: its line, and the place after it */
    size_t room;                /* how many tokens the next batch has room for */
    size_t given, count;        /* how many tokens of the batch were given, and how many it has */
    size_t before[SCANNER_STATE_LEN]; /* the state before the batch */
    size_t tokens[SCANNER_BATCH * SCANNER_TOKEN_LEN];
};

/*
 * Gives the memory back. It may be called after an init that was refused, and more than once. After
 * it, scanner_next is refused with SCANNER_DOES_NOT_FIT, and there are no errors and no lines.
 */
static inline void scanner_free(struct scanner *s)
{
    free(s->table);
    free(s->list);
    free(s->area);
    memset(s, 0, sizeof *s);
    s->refusal = SCANNER_DOES_NOT_FIT;
}

/* The functions named scanner_inner_.. serve this file only. */

/* Frees a scanner whose init is refused, and notes the refusal. */
static inline uint8_t scanner_inner_refuse(struct scanner *s, uint8_t refusal)
{
    size_t place = s->bad_place;
    scanner_free(s);
    s->bad_place = place;
    s->refusal = refusal;
    return refusal;
}

/* Allocates buffers that are large enough for most sources. */
static inline uint8_t scanner_inner_allocate(struct scanner *s, const uint8_t *src, size_t len)
{
    memset(s, 0, sizeof *s);
    s->src = len > 0 ? src : (const uint8_t *)"";
    s->len = len;
    s->line = 1;
    s->room = SCANNER_BATCH;
    s->table_len = (len < SCANNER_MAX_SOURCE ? len : SCANNER_MAX_SOURCE) / 16 + 8;
    s->list_len = 8 * SCANNER_ERROR_LEN;
    s->area_len = 512;
    s->table = (size_t *)malloc(s->table_len * sizeof *s->table);
    s->list = (size_t *)malloc(s->list_len * sizeof *s->list);
    s->area = (uint8_t *)malloc(s->area_len);
    if (s->table == NULL || s->list == NULL || s->area == NULL)
        return scanner_inner_refuse(s, SCANNER_NO_MEMORY);
    return SCANNER_OK;
}

/* Opens the source with the buffers that were allocated. */
static inline uint8_t scanner_inner_open(struct scanner *s, size_t base, size_t size)
{
    size_t answer = 0;
    uint8_t refusal = scanner_open(s->src, s->len, base, size, s->table, s->table_len,
                                   s->state, SCANNER_STATE_LEN, &answer, 1);
    if (refusal == SCANNER_OK) {
        s->characters = answer;
        return SCANNER_OK;
    }
    s->bad_place = refusal == SCANNER_NOT_UTF8 ? answer : 0;
    return scanner_inner_refuse(s, refusal);
}

/*
 * Opens a source at a base: its positions are base to base + size. The size is at least the number
 * of characters. Answers 0 or a refusal: those of scanner_open, or SCANNER_NO_MEMORY. The source
 * may be NULL if it has no bytes.
 */
static inline uint8_t scanner_init_with_size(struct scanner *s, const uint8_t *src, size_t len,
                                             size_t base, size_t size)
{
    uint8_t refusal = scanner_inner_allocate(s, src, len);
    return refusal != SCANNER_OK ? refusal : scanner_inner_open(s, base, size);
}

/*
 * Opens a source at base 0, with its number of characters as size. With this size, an LF at the
 * very end of the source starts no line. Answers as scanner_init_with_size does.
 */
static inline uint8_t scanner_init(struct scanner *s, const uint8_t *src, size_t len)
{
    uint8_t refusal = scanner_init_with_size(s, src, len, 0, len);
    if (refusal != SCANNER_OK || s->characters == len)
        return refusal;
    return scanner_inner_open(s, 0, s->characters);
}

/* One call of the library, with room for so many tokens. */
static inline uint8_t scanner_inner_call(struct scanner *s, size_t room, size_t *count)
{
    return scanner_scan_many(s->src, s->len, s->state, SCANNER_STATE_LEN, s->table, s->table_len,
                             s->list, s->list_len, s->area, s->area_len,
                             s->tokens, room * SCANNER_TOKEN_LEN, count, 1);
}

/* Doubles a buffer, up to a length that suffices. Without memory the buffer and its length stay. */
static inline void *scanner_inner_double(void *buffer, size_t *len, size_t enough, size_t width)
{
    size_t longer = *len < enough / 2 ? *len * 2 : enough;
    void *larger = longer > *len ? realloc(buffer, longer * width) : NULL;
    if (larger == NULL)
        return buffer;
    *len = longer;
    return larger;
}

/* Enlarges the buffer that a call was refused for. Every other refusal stays a refusal. */
static inline uint8_t scanner_inner_grow(struct scanner *s, uint8_t refusal)
{
    size_t before = s->table_len + s->list_len + s->area_len;
    switch (refusal) {
    case SCANNER_TABLE_FULL:
        s->table = (size_t *)scanner_inner_double(
            s->table, &s->table_len, SCANNER_TABLE_ENOUGH(s->len), sizeof *s->table);
        break;
    case SCANNER_LIST_FULL:
        s->list = (size_t *)scanner_inner_double(
            s->list, &s->list_len, SCANNER_LIST_ENOUGH(s->len), sizeof *s->list);
        break;
    case SCANNER_AREA_FULL:
        s->area = (uint8_t *)scanner_inner_double(
            s->area, &s->area_len, SCANNER_AREA_ENOUGH(s->len), sizeof *s->area);
        break;
    default:
        return refusal;
    }
    return s->table_len + s->list_len + s->area_len > before ? SCANNER_OK : SCANNER_NO_MEMORY;
}

/* Scans the next batch. The one after it has twice as much room. */
static inline uint8_t scanner_inner_batch(struct scanner *s)
{
    size_t count = 0;
    uint8_t refusal;
    if (s->table == NULL)
        return s->refusal;
    memcpy(s->before, s->state, sizeof s->state);
    while ((refusal = scanner_inner_call(s, s->room, &count)) != SCANNER_OK)
        if ((refusal = scanner_inner_grow(s, refusal)) != SCANNER_OK)
            return refusal;
    s->room = s->room < SCANNER_BATCH / 2 ? s->room * 2 : SCANNER_BATCH;
    s->given = 0;
    s->count = count;
    return SCANNER_OK;
}

/* Line and column of the next token. It goes on from the line of the token before. */
static inline void scanner_inner_locate(struct scanner *s, struct scanner_token *token)
{
    size_t offset = token->position - s->state[SCANNER_STATE_BASE];
    while (s->line < s->state[SCANNER_STATE_LINES] && s->table[s->line] <= offset)
        s->line++;
    token->line = s->line;
    token->column = offset - s->table[s->line - 1] + 1;
}

static inline int scanner_inner_is_blank(uint8_t byte)
{
    return byte == ' ' || byte == '\t' || byte == '\r' || byte == '\n';
}

/*
 * The bytes that the next token was read from. A text that is shown from the source is exactly
 * these bytes. Operators and keywords have an empty text at the place where they start. A token
 * with its text in the area is the last of its batch: it ends where the scans stopped, and starts
 * after the blanks that follow the token before.
 */
static inline void scanner_inner_span(struct scanner *s, const size_t *numbers,
                                      struct scanner_token *token)
{
    token->start = numbers[SCANNER_TOKEN_TEXT_START];
    token->end = numbers[SCANNER_TOKEN_TEXT_END];
    if (numbers[SCANNER_TOKEN_TEXT_IN_AREA] != 0) {
        token->end = s->state[SCANNER_STATE_PLACE];
        token->start = s->end;
        while (token->start < token->end && scanner_inner_is_blank(s->src[token->start]))
            token->start++;
    } else if (token->kind >= SCANNER_KIND_ADD && !token->inserted) {
        token->end += strlen(scanner_kind_name(token->kind));
    }
    s->end = token->end;
}

/*
 * Gives the next token. After the last one comes EOF, again and again. Answers 0 or a refusal:
 * SCANNER_NO_MEMORY, after which it may be called again, or the refusal of the init.
 *
 * The bytes of text and value may be inside the scanner's own text area. They stay there until the
 * next call of scanner_next or scanner_free.
 */
static inline uint8_t scanner_next(struct scanner *s, struct scanner_token *token)
{
    const size_t *numbers;
    uint8_t refusal;
    if (s->given == s->count && (refusal = scanner_inner_batch(s)) != SCANNER_OK)
        return refusal;
    numbers = s->tokens + s->given * SCANNER_TOKEN_LEN;
    s->given++;
    token->kind = numbers[SCANNER_TOKEN_KIND];
    token->inserted = numbers[SCANNER_TOKEN_INSERTED] != 0;
    token->position = numbers[SCANNER_TOKEN_POSITION];
    token->code = (uint32_t)numbers[SCANNER_TOKEN_CODE];
    token->text = scanner_part(numbers + SCANNER_TOKEN_TEXT_IN_AREA, s->src, s->area);
    token->value = scanner_part(numbers + SCANNER_TOKEN_VALUE_IN_AREA, s->src, s->area);
    scanner_inner_locate(s, token);
    scanner_inner_span(s, numbers, token);
    return SCANNER_OK;
}

/*
 * Drops what was scanned ahead: state, line table and error list are then those after the last
 * token given. It goes back to the state before the batch and scans the tokens that were given once
 * more. They come out the same. None of them has a text or a value in the area, since such a token
 * is the last of its batch. Frequent calls cost little, because the batches are short after a call.
 */
static inline void scanner_settle(struct scanner *s)
{
    size_t count;
    if (s->given == s->count)
        return;
    memcpy(s->state, s->before, sizeof s->state);
    scanner_inner_call(s, s->given, &count);
    s->count = s->given;
    s->room = 1;
}

/* How many errors the tokens given so far have. */
static inline size_t scanner_errors(struct scanner *s)
{
    scanner_settle(s);
    return s->state[SCANNER_STATE_ERRORS];
}

/* One of these errors, by its index from 0, in the order of the source; all zeros past the last. */
static inline struct scanner_error_record scanner_error_at(struct scanner *s, size_t index)
{
    size_t numbers[SCANNER_ERROR_LEN] = {0, 0, 0, 0};
    struct scanner_error_record error;
    if (index < scanner_errors(s))
        scanner_error(s->state, SCANNER_STATE_LEN, s->list, s->list_len, index,
                      numbers, SCANNER_ERROR_LEN);
    error.offset = numbers[SCANNER_OFFSET];
    error.line = numbers[SCANNER_LINE];
    error.column = numbers[SCANNER_COLUMN];
    error.number = numbers[SCANNER_NUMBER];
    return error;
}

/* How many lines were begun so far. */
static inline size_t scanner_lines(struct scanner *s)
{
    scanner_settle(s);
    return s->state[SCANNER_STATE_LINES];
}

#ifdef __cplusplus
}
#endif

#endif
