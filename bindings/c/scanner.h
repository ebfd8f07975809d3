/*
 * The recipe scanner for programs in C and C++: Go text to tokens.
 *
 * This file has the numbers of the scanner, their names, and its plain functions, which allocate
 * nothing. scanner_struct.h has a `struct scanner` over them, which owns its buffers. README.md,
 * beside this file, says which of the two to use, and how to build.
 *
 * Open a source once with scanner_open. Then call scanner_scan for one token after the other, or
 * scanner_scan_many for many at a time, up to SCANNER_KIND_EOF. The library keeps nothing between
 * calls: state, line table, error list and text area are the caller's.
 *
 * Each function answers SCANNER_OK, which is 0, or the number of a refusal. A refused call changes
 * nothing that it was lent, with one exception: with SCANNER_NOT_UTF8, scanner_open writes the
 * place of a bad byte to `answer`. After SCANNER_TABLE_FULL, SCANNER_LIST_FULL or
 * SCANNER_AREA_FULL, copy the line table, the error list or the text area to a larger one, and call
 * again.
 *
 * An offset counts characters from 0. A position is the base plus an offset. A place is a byte
 * index.
 *
 * First of all, each function checks that its slices of numbers are long enough: a state of
 * SCANNER_STATE_LEN numbers, a token of SCANNER_TOKEN_LEN, room for one token in `tokens`, and in
 * `answer` as many numbers as its comment says. If one is too short, the call is refused with
 * SCANNER_DOES_NOT_FIT, and nothing is written. Table, list and area may have any length. The list
 * holds one error for each SCANNER_ERROR_LEN numbers.
 *
 * Lengths count elements. No pointer may be NULL, not even where its length is 0, and no two
 * buffers of a call may overlap.
 */
#ifndef SCANNER_H
#define SCANNER_H

#include <stddef.h>
#include <stdint.h>

/* The scanner counts in 64 bits. */
#if defined(__cplusplus)
static_assert(sizeof(size_t) == 8, "the scanner counts in 64 bits");
#elif defined(__STDC_VERSION__) && __STDC_VERSION__ >= 201112L
_Static_assert(sizeof(size_t) == 8, "the scanner counts in 64 bits");
#else
typedef char scanner_counts_in_64_bits[sizeof(size_t) == 8 ? 1 : -1];
#endif

#ifdef __cplusplus
extern "C" {
#endif

/* The longest source in bytes, and the greatest base + size. */
#define SCANNER_MAX_SOURCE 1048576
#define SCANNER_MAX_POSITION 4294967295u

/* How many numbers a state, a token, an error, an answered position and a part have. */
#define SCANNER_STATE_LEN 9
#define SCANNER_TOKEN_LEN 10
#define SCANNER_ERROR_LEN 4
#define SCANNER_POSITION_LEN 3
#define SCANNER_PART_LEN 3

/*
 * Lengths of line table, error list and text area that always suffice for a source of so many
 * bytes: with these, a source that was opened is scanned to EOF and no buffer is ever full.
 *
 * The table has the first line start, and at most one more for each character. A scan records at
 * most one error, and a scan that records one has read a character. A text is at most one byte
 * longer than the bytes that it was read from (`017` is shown as `0o17`). A value is shorter than
 * these bytes.
 *
 * Most sources need much less, so it pays to start small and to enlarge a buffer when it is full.
 */
#define SCANNER_TABLE_ENOUGH(bytes) ((bytes) + 1)
#define SCANNER_LIST_ENOUGH(bytes) (SCANNER_ERROR_LEN * ((bytes) + 1))
#define SCANNER_AREA_ENOUGH(bytes) (2 * ((bytes) + 1))

/* The numbers of a state. */
enum scanner_state_index {
    SCANNER_STATE_BASE,     /* the position of offset 0 */
    SCANNER_STATE_SIZE,     /* positions are base to base + size */
    SCANNER_STATE_PLACE,    /* the place at which the next scan starts */
    SCANNER_STATE_OFFSET,   /* the characters before it */
    SCANNER_STATE_MARK,     /* not 0: a semicolon may be inserted; a scan gives 0 or 1 */
    SCANNER_STATE_LINES,    /* line starts in the table */
    SCANNER_STATE_ERRORS,   /* errors in the list */
    SCANNER_STATE_LINE,     /* the line of the offset; it is the number of line starts */
    SCANNER_STATE_LINE_START /* the offset at which this line starts; it is the last line start */
};

/*
 * The numbers of a token. Text and value are parts of three numbers each: a flag, and the places of
 * its start and its end. The flag is 0 for a part of the source and any other number for one of the
 * area; a scan gives 0 or 1.
 */
enum scanner_token_index {
    SCANNER_TOKEN_KIND,
    SCANNER_TOKEN_INSERTED, /* 1: a semicolon that is not written in the source */
    SCANNER_TOKEN_POSITION, /* base + offset of its first character */
    SCANNER_TOKEN_CODE,     /* the code point of a CHAR, else 0 */
    SCANNER_TOKEN_TEXT_IN_AREA,
    SCANNER_TOKEN_TEXT_START,
    SCANNER_TOKEN_TEXT_END,
    SCANNER_TOKEN_VALUE_IN_AREA,
    SCANNER_TOKEN_VALUE_START,
    SCANNER_TOKEN_VALUE_END
};

/* The numbers of an error. The first three are also those that scanner_position answers. */
enum scanner_place_index {
    SCANNER_OFFSET,         /* in characters, from 0 */
    SCANNER_LINE,           /* from 1 */
    SCANNER_COLUMN,         /* in characters, from 1 */
    SCANNER_NUMBER          /* one of enum scanner_error_number */
};

/*
 * The refusals. Those up to SCANNER_NO_LINE come from the input, the others from the state and the
 * buffers.
 *
 * SCANNER_DOES_NOT_FIT says that what a call is lent does not go together:
 *
 * - the place is beyond the source, or the offset is above the place or the size,
 * - base + size is too large,
 * - the line count is 0 or above what the table holds, or the first line start is not 0,
 * - the last line start, or that of the line asked for, is above the offset,
 * - the state's line is not the line count, or its line start is not the last line start,
 * - the error count is above what the list holds,
 * - a part of a token is outside its buffer,
 * - a slice is too short.
 *
 * The library never answers SCANNER_NO_MEMORY; the functions of scanner_struct.h do.
 */
enum scanner_refusal {
    SCANNER_OK,
    SCANNER_NOT_UTF8,       /* opening: not UTF-8 */
    SCANNER_TOO_LONG,       /* opening: more than SCANNER_MAX_SOURCE bytes */
    SCANNER_SIZE,           /* opening: size below the number of characters, or
                               base + size too large; a scan: past the size */
    SCANNER_POSITION,       /* a position outside base to base + size */
    SCANNER_NO_LINE,        /* line 0, or above the line count */
    SCANNER_DOES_NOT_FIT,   /* state, token and buffers do not go together, or a short slice */
    SCANNER_TABLE_FULL,     /* more line starts than the line table holds */
    SCANNER_LIST_FULL,      /* an error, and the error list is full */
    SCANNER_AREA_FULL,      /* more bytes to write than the text area holds */
    SCANNER_NO_MEMORY = 255 /* struct scanner: a buffer could not grow */
};

/*
 * The errors of a source. Every token of kind SCANNER_KIND_ILLEGAL has one. The only other tokens
 * with one are a raw string and a comment that is not closed.
 */
enum scanner_error_number {
    SCANNER_ERROR_BINARY = 1,   /* bad binary number */
    SCANNER_ERROR_OCTAL,        /* bad octal number */
    SCANNER_ERROR_HEXADECIMAL,  /* bad hexadecimal number */
    SCANNER_ERROR_UNDERSCORE,   /* _ misplaced in a number */
    SCANNER_ERROR_EXPONENT,     /* exponent without digits */
    SCANNER_ERROR_RAW_STRING,   /* raw string not closed */
    SCANNER_ERROR_COMMENT,      /* comment not closed */
    SCANNER_ERROR_QUOTE,        /* string or character not closed */
    SCANNER_ERROR_ESCAPE,       /* unknown escape */
    SCANNER_ERROR_ESCAPE_CUT,   /* escape cut by the end */
    SCANNER_ERROR_ESCAPE_CHAR,  /* bad character in an escape */
    SCANNER_ERROR_CODE_POINT,   /* escape of no byte, or of no Unicode code point */
    SCANNER_ERROR_CHAR,         /* character literal not of one character */
    SCANNER_ERROR_TOKEN         /* unknown token: a character that starts none, or two points */
};

/* The kinds of tokens. */
enum scanner_kind {
    SCANNER_KIND_NONE = 0,
    SCANNER_KIND_ILLEGAL,
    SCANNER_KIND_EOF,
    SCANNER_KIND_COMMENT,
    SCANNER_KIND_IDENT,
    SCANNER_KIND_INT,
    SCANNER_KIND_FLOAT,
    SCANNER_KIND_IMAG,
    SCANNER_KIND_CHAR,
    SCANNER_KIND_STRING,
    SCANNER_KIND_ADD,                   /* + */
    SCANNER_KIND_SUB,                   /* - */
    SCANNER_KIND_MUL,                   /* * */
    SCANNER_KIND_QUO,                   /* / */
    SCANNER_KIND_REM,                   /* % */
    SCANNER_KIND_AND,                   /* & */
    SCANNER_KIND_OR,                    /* | */
    SCANNER_KIND_XOR,                   /* ^ */
    SCANNER_KIND_SHL,                   /* << */
    SCANNER_KIND_SHR,                   /* >> */
    SCANNER_KIND_AND_NOT,               /* &^ */
    SCANNER_KIND_ADD_ASSIGN,            /* += */
    SCANNER_KIND_SUB_ASSIGN,            /* -= */
    SCANNER_KIND_MUL_ASSIGN,            /* *= */
    SCANNER_KIND_QUO_ASSIGN,            /* /= */
    SCANNER_KIND_REM_ASSIGN,            /* %= */
    SCANNER_KIND_AND_ASSIGN,            /* &= */
    SCANNER_KIND_OR_ASSIGN,             /* |= */
    SCANNER_KIND_XOR_ASSIGN,            /* ^= */
    SCANNER_KIND_SHL_ASSIGN,            /* <<= */
    SCANNER_KIND_SHR_ASSIGN,            /* >>= */
    SCANNER_KIND_AND_NOT_ASSIGN,        /* &^= */
    SCANNER_KIND_LAND,                  /* && */
    SCANNER_KIND_LOR,                   /* || */
    SCANNER_KIND_ARROW,                 /* <- */
    SCANNER_KIND_INC,                   /* ++ */
    SCANNER_KIND_DEC,                   /* -- */
    SCANNER_KIND_EQL,                   /* == */
    SCANNER_KIND_LSS,                   /* < */
    SCANNER_KIND_GTR,                   /* > */
    SCANNER_KIND_ASSIGN,                /* = */
    SCANNER_KIND_NOT,                   /* ! */
    SCANNER_KIND_NEQ,                   /* != */
    SCANNER_KIND_LEQ,                   /* <= */
    SCANNER_KIND_GEQ,                   /* >= */
    SCANNER_KIND_DEFINE,                /* := */
    SCANNER_KIND_ELLIPSIS,              /* ... */
    SCANNER_KIND_LPAREN,                /* ( */
    SCANNER_KIND_LBRACK,                /* [ */
    SCANNER_KIND_LBRACE,                /* { */
    SCANNER_KIND_COMMA,                 /* , */
    SCANNER_KIND_PERIOD,                /* . */
    SCANNER_KIND_RPAREN,                /* ) */
    SCANNER_KIND_RBRACK,                /* ] */
    SCANNER_KIND_RBRACE,                /* } */
    SCANNER_KIND_SEMICOLON,             /* ; */
    SCANNER_KIND_COLON,                 /* : */
    SCANNER_KIND_BREAK,
    SCANNER_KIND_CASE,
    SCANNER_KIND_CHAN,
    SCANNER_KIND_CONST,
    SCANNER_KIND_CONTINUE,
    SCANNER_KIND_DEFAULT,
    SCANNER_KIND_DEFER,
    SCANNER_KIND_ELSE,
    SCANNER_KIND_FALLTHROUGH,
    SCANNER_KIND_FOR,
    SCANNER_KIND_FUNC,
    SCANNER_KIND_GO,
    SCANNER_KIND_GOTO,
    SCANNER_KIND_IF,
    SCANNER_KIND_IMPORT,
    SCANNER_KIND_INTERFACE,
    SCANNER_KIND_MAP,
    SCANNER_KIND_PACKAGE,
    SCANNER_KIND_RANGE,
    SCANNER_KIND_RETURN,
    SCANNER_KIND_SELECT,
    SCANNER_KIND_STRUCT,
    SCANNER_KIND_SWITCH,
    SCANNER_KIND_TYPE,
    SCANNER_KIND_VAR,
    SCANNER_KINDS                       /* how many there are */
};

/*
 * The name of a kind: operators and keywords as they are written, the others in capitals, as in
 * SCANNER_KIND_IDENT. A number that is no kind has an empty name.
 */
static inline const char *scanner_kind_name(size_t kind)
{
    static const char names[SCANNER_KINDS][12] = {
        "NONE", "ILLEGAL", "EOF", "COMMENT", "IDENT", "INT", "FLOAT", "IMAG", "CHAR", "STRING",
        "+", "-", "*", "/", "%", "&", "|", "^", "<<", ">>", "&^",
        "+=", "-=", "*=", "/=", "%=", "&=", "|=", "^=", "<<=", ">>=", "&^=",
        "&&", "||", "<-", "++", "--", "==", "<", ">", "=", "!",
        "!=", "<=", ">=", ":=", "...", "(", "[", "{", ",", ".", ")", "]", "}", ";", ":",
        "break", "case", "chan", "const", "continue", "default", "defer", "else", "fallthrough",
        "for", "func", "go", "goto", "if", "import", "interface", "map", "package", "range",
        "return", "select", "struct", "switch", "type", "var"
    };
    return kind < SCANNER_KINDS ? names[kind] : "";
}

/* Whether a kind is IDENT, INT, FLOAT, IMAG, CHAR or STRING. */
static inline int scanner_kind_is_literal(size_t kind)
{
    return SCANNER_KIND_IDENT <= kind && kind <= SCANNER_KIND_STRING;
}

/* Whether a kind is an operator; brackets, commas and semicolons are. */
static inline int scanner_kind_is_operator(size_t kind)
{
    return SCANNER_KIND_ADD <= kind && kind <= SCANNER_KIND_COLON;
}

/* Whether a kind is a keyword. */
static inline int scanner_kind_is_keyword(size_t kind)
{
    return SCANNER_KIND_BREAK <= kind && kind <= SCANNER_KIND_VAR;
}

/* The precedence of a binary operator: 1 to 5, where 5 binds most tightly. Any other kind: 0. */
static inline int scanner_kind_precedence(size_t kind)
{
    switch (kind) {
    case SCANNER_KIND_LOR:
        return 1;
    case SCANNER_KIND_LAND:
        return 2;
    case SCANNER_KIND_EQL: case SCANNER_KIND_NEQ: case SCANNER_KIND_LSS:
    case SCANNER_KIND_LEQ: case SCANNER_KIND_GTR: case SCANNER_KIND_GEQ:
        return 3;
    case SCANNER_KIND_ADD: case SCANNER_KIND_SUB: case SCANNER_KIND_OR: case SCANNER_KIND_XOR:
        return 4;
    case SCANNER_KIND_MUL: case SCANNER_KIND_QUO: case SCANNER_KIND_REM: case SCANNER_KIND_SHL:
    case SCANNER_KIND_SHR: case SCANNER_KIND_AND: case SCANNER_KIND_AND_NOT:
        return 5;
    default:
        return 0;
    }
}

/* What the number of an error means. */
static inline const char *scanner_error_text(size_t number)
{
    switch (number) {
    case SCANNER_ERROR_BINARY: return "bad binary number: no digits, or a digit above 1";
    case SCANNER_ERROR_OCTAL: return "bad octal number: no digits, or a digit above 7";
    case SCANNER_ERROR_HEXADECIMAL: return "bad hexadecimal number: no digits";
    case SCANNER_ERROR_UNDERSCORE: return "misplaced '_' in a number";
    case SCANNER_ERROR_EXPONENT: return "exponent has no digits";
    case SCANNER_ERROR_RAW_STRING: return "raw string is not closed";
    case SCANNER_ERROR_COMMENT: return "comment is not closed";
    case SCANNER_ERROR_QUOTE: return "string or character literal is not closed";
    case SCANNER_ERROR_ESCAPE: return "unknown escape";
    case SCANNER_ERROR_ESCAPE_CUT: return "source ends inside an escape";
    case SCANNER_ERROR_ESCAPE_CHAR: return "bad character in an escape";
    case SCANNER_ERROR_CODE_POINT:
        return "escape is out of range: not a byte, or not a Unicode code point";
    case SCANNER_ERROR_CHAR: return "character literal must have exactly one character";
    case SCANNER_ERROR_TOKEN: return "unknown token: a character that starts none, or '..'";
    default: return "unknown error";
    }
}

/* What the number of a refusal means. */
static inline const char *scanner_refusal_text(size_t number)
{
    switch (number) {
    case SCANNER_OK: return "no refusal";
    case SCANNER_NOT_UTF8: return "source is not UTF-8";
    case SCANNER_TOO_LONG: return "source has more than 1,048,576 bytes";
    case SCANNER_SIZE:
        return "size is less than the number of characters, or base + size is more than "
               "4,294,967,295";
    case SCANNER_POSITION: return "position is outside the source";
    case SCANNER_NO_LINE: return "no such line was read";
    case SCANNER_DOES_NOT_FIT: return "state, source and buffers do not fit together";
    case SCANNER_TABLE_FULL: return "line table is full";
    case SCANNER_LIST_FULL: return "error list is full";
    case SCANNER_AREA_FULL: return "text area is too small";
    case SCANNER_NO_MEMORY: return "not enough memory";
    default: return "unknown refusal";
    }
}

/*
 * Opens a source: UTF-8, of at most SCANNER_MAX_SOURCE bytes. The size must be at least its number
 * of characters. The first state goes to `state`, the first line start to `table`, and the number
 * of characters to `answer` (1 number). If the call is refused with SCANNER_NOT_UTF8, `answer` is
 * the place of a byte that belongs to no character.
 */
uint8_t scanner_open(const uint8_t *src, size_t src_len, size_t base, size_t size,
                     size_t *table, size_t table_len, size_t *state, size_t state_len,
                     size_t *answer, size_t answer_len);

/*
 * Scans one token: its numbers go to `token`, the next state to `state`. Give the source that was
 * opened, and state, table and list as the call before left them. A text or value that differs
 * from the source is written to the start of `area`, the text first. It stays there until the next
 * scan that is lent this area. The bytes after it are not changed.
 */
uint8_t scanner_scan(const uint8_t *src, size_t src_len, size_t *state, size_t state_len,
                     size_t *table, size_t table_len, size_t *list, size_t list_len,
                     uint8_t *area, size_t area_len, size_t *token, size_t token_len);

/*
 * Scans many tokens in one call: at most as many as `tokens` has room for, at SCANNER_TOKEN_LEN
 * numbers each. The number of tokens given goes to `answer` (1 number). State and buffers are then
 * what so many calls of scanner_scan leave.
 *
 * It stops after EOF, after a token whose text or value is in the area, since the next scan would
 * write over it, and before a scan that would be refused. That scan is the first of the next call,
 * which is then refused with its number. So a call gives one token or more, or it is refused, gives
 * none and changes nothing. batches.c, beside this file, is an example.
 */
uint8_t scanner_scan_many(const uint8_t *src, size_t src_len, size_t *state, size_t state_len,
                          size_t *table, size_t table_len, size_t *list, size_t list_len,
                          uint8_t *area, size_t area_len, size_t *tokens, size_t tokens_len,
                          size_t *answer, size_t answer_len);

/*
 * Offset, line and column of a position, in `answer` (SCANNER_POSITION_LEN numbers). Lines are
 * known as far as the source was read.
 */
uint8_t scanner_position(const size_t *state, size_t state_len,
                         const size_t *table, size_t table_len,
                         size_t position, size_t *answer, size_t answer_len);

/* The position at which a line, counted from 1, starts, in `answer` (1 number). */
uint8_t scanner_line_start(const size_t *state, size_t state_len,
                           const size_t *table, size_t table_len,
                           size_t line, size_t *answer, size_t answer_len);

/*
 * Offset, line, column and number of an error, by its index from 0, in `answer` (SCANNER_ERROR_LEN
 * numbers); four zeros past the last.
 */
uint8_t scanner_error(const size_t *state, size_t state_len, const size_t *list, size_t list_len,
                      size_t index, size_t *answer, size_t answer_len);

/*
 * The text of a token, as a part of the source or of the area, in `answer` (SCANNER_PART_LEN
 * numbers): 1 if it is in the area, its start, its end. Give the source that was scanned, and the
 * area as the token's own scan left it. Operators (semicolons among them), keywords and EOF have
 * an empty text: a part of the source at the place of the token. A part that is not inside its
 * buffer, as one of a token that no scan gave may be, is refused with SCANNER_DOES_NOT_FIT.
 *
 * Comments and raw strings are shown without CR, and a comment to the end of a line with its LF. In
 * numbers, prefix and exponent are shown in lower case. An octal number that starts with 0 alone
 * is shown with an o: `017` as `0o17`, `0_600` as `0o_600`. If `.`, e, E or i follows its digits and
 * underscores, a number that starts with 0 is decimal, and they are shown as they are: `072.40`.
 */
uint8_t scanner_text(const uint8_t *src, size_t src_len, const uint8_t *area, size_t area_len,
                     const size_t *token, size_t token_len, size_t *answer, size_t answer_len);

/*
 * The value of a STRING, in the same way. Every other token has an empty value. The call looks only
 * at the part, and not at the kind.
 */
uint8_t scanner_value(const uint8_t *src, size_t src_len, const uint8_t *area, size_t area_len,
                      const size_t *token, size_t token_len, size_t *answer, size_t answer_len);

/* Bytes of the source or of the area. No 0 follows them. */
struct scanner_bytes {
    const uint8_t *start;
    size_t len;
};

/*
 * The bytes of a part that scanner_text or scanner_value answered. It checks nothing: the part
 * must be inside its buffer. This holds for the parts of a token that a scan gave, with the source
 * and the area of that scan. So for such a token
 *
 *     scanner_part(token + SCANNER_TOKEN_TEXT_IN_AREA, src, area)
 *
 * is its text, without a call of the library.
 */
static inline struct scanner_bytes scanner_part(const size_t *part, const uint8_t *src,
                                                const uint8_t *area)
{
    struct scanner_bytes bytes;
    bytes.start = (part[0] != 0 ? area : src) + part[1];
    bytes.len = part[2] - part[1];
    return bytes;
}

#ifdef __cplusplus
}
#endif

#endif
