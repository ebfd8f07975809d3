/*
 * Prints the tokens of a file, each with its line and column, and then its errors.
 *
 *     gcc -I bindings/c -o example bindings/c/example.c target/staticlib/libscanner.a
 *     ./example examples/lane.go
 */
#include "scanner_struct.h"

#include <stdio.h>

/* Reads at most `room` bytes of a file. Answers 1, or says why it cannot be read and answers 0. */
static int read_file(const char *name, uint8_t *bytes, size_t room, size_t *len)
{
    FILE *file = fopen(name, "rb");
    int done = 0;
    if (file != NULL) {
        *len = fread(bytes, 1, room, file);
        done = !ferror(file);
    }
    if (!done)
        perror(name);
    if (file != NULL)
        fclose(file);
    return done;
}

static void print_token(const struct scanner_token *token)
{
    size_t i;
    printf("%zu:%zu  %s", token->line, token->column, scanner_kind_name(token->kind));
    if (token->inserted || token->text.len > 0)
        printf("  %s", token->inserted ? "(inserted)" : "");
    for (i = 0; i < token->text.len; i++)
        if (token->text.start[i] == '\n')
            printf("\\n");
        else
            putchar(token->text.start[i]);
    printf("\n");
}

static void print_errors(struct scanner *s, const char *name)
{
    size_t i;
    for (i = 0; i < scanner_errors(s); i++) {
        struct scanner_error_record error = scanner_error_at(s, i);
        printf("%s:%zu:%zu: %s\n", name, error.line, error.column,
               scanner_error_text(error.number));
    }
}

int main(int argc, char **argv)
{
    static uint8_t src[SCANNER_MAX_SOURCE + 1]; /* one byte more: a longer file is refused */
    struct scanner s;
    struct scanner_token token;
    uint8_t refusal;
    size_t len;

    if (argc != 2) {
        fprintf(stderr, "usage: example FILE\n");
        return 1;
    }
    if (!read_file(argv[1], src, sizeof src, &len))
        return 1;
    refusal = scanner_init(&s, src, len);
    while (refusal == SCANNER_OK && (refusal = scanner_next(&s, &token)) == SCANNER_OK) {
        print_token(&token);
        if (token.kind == SCANNER_KIND_EOF)
            break;
    }
    if (refusal == SCANNER_NOT_UTF8)
        fprintf(stderr, "%s: %s: see byte %zu\n", argv[1], scanner_refusal_text(refusal),
                s.bad_place);
    else if (refusal != SCANNER_OK)
        fprintf(stderr, "%s: %s\n", argv[1], scanner_refusal_text(refusal));
    else
        print_errors(&s, argv[1]);
    scanner_free(&s);
    return refusal != SCANNER_OK;
}
