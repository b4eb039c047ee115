/*
 * A host in C: prints the tokens of plug-in files, one a line (kind, span, text), and what is wrong with a file that is refused:
 *     FILE:LINE:COLUMN: message (number, position, detail)
 * with the line under it. The files lie one behind the other in the map, so that a span also tells the file.
 *
 * Ends with 0, with 1 if a file was refused, with 2 if a file could not be read.
 */
#include <errno.h>
#include <stdio.h>
#include <string.h>

#include "witbox.h"

static const char *const kind_names[WITBOX_KIND_END] = {
    [WITBOX_KIND_WHITESPACE] = "Whitespace",
    [WITBOX_KIND_COMMENT] = "Comment",
    [WITBOX_KIND_EQUALS] = "Equals",
    [WITBOX_KIND_COMMA] = "Comma",
    [WITBOX_KIND_COLON] = "Colon",
    [WITBOX_KIND_PERIOD] = "Period",
    [WITBOX_KIND_SEMICOLON] = "Semicolon",
    [WITBOX_KIND_LEFT_PAREN] = "LeftParen",
    [WITBOX_KIND_RIGHT_PAREN] = "RightParen",
    [WITBOX_KIND_LEFT_BRACE] = "LeftBrace",
    [WITBOX_KIND_RIGHT_BRACE] = "RightBrace",
    [WITBOX_KIND_LESS_THAN] = "LessThan",
    [WITBOX_KIND_GREATER_THAN] = "GreaterThan",
    [WITBOX_KIND_R_ARROW] = "RArrow",
    [WITBOX_KIND_STAR] = "Star",
    [WITBOX_KIND_AT] = "At",
    [WITBOX_KIND_SLASH] = "Slash",
    [WITBOX_KIND_PLUS] = "Plus",
    [WITBOX_KIND_MINUS] = "Minus",
    [WITBOX_KIND_STRING_LITERAL] = "StringLiteral",
    [WITBOX_KIND_USE] = "Use",
    [WITBOX_KIND_TYPE] = "Type",
    [WITBOX_KIND_FUNC] = "Func",
    [WITBOX_KIND_U8] = "U8",
    [WITBOX_KIND_U16] = "U16",
    [WITBOX_KIND_U32] = "U32",
    [WITBOX_KIND_U64] = "U64",
    [WITBOX_KIND_S8] = "S8",
    [WITBOX_KIND_S16] = "S16",
    [WITBOX_KIND_S32] = "S32",
    [WITBOX_KIND_S64] = "S64",
    [WITBOX_KIND_F32] = "F32",
    [WITBOX_KIND_F64] = "F64",
    [WITBOX_KIND_CHAR] = "Char",
    [WITBOX_KIND_RECORD] = "Record",
    [WITBOX_KIND_RESOURCE] = "Resource",
    [WITBOX_KIND_OWN] = "Own",
    [WITBOX_KIND_BORROW] = "Borrow",
    [WITBOX_KIND_FLAGS] = "Flags",
    [WITBOX_KIND_VARIANT] = "Variant",
    [WITBOX_KIND_ENUM] = "Enum",
    [WITBOX_KIND_BOOL] = "Bool",
    [WITBOX_KIND_STRING] = "String",
    [WITBOX_KIND_OPTION] = "Option",
    [WITBOX_KIND_RESULT] = "Result",
    [WITBOX_KIND_FUTURE] = "Future",
    [WITBOX_KIND_STREAM] = "Stream",
    [WITBOX_KIND_ERROR_CONTEXT] = "ErrorContext",
    [WITBOX_KIND_LIST] = "List",
    [WITBOX_KIND_MAP] = "Map",
    [WITBOX_KIND_UNDERSCORE] = "Underscore",
    [WITBOX_KIND_AS] = "As",
    [WITBOX_KIND_FROM] = "From",
    [WITBOX_KIND_STATIC] = "Static",
    [WITBOX_KIND_INTERFACE] = "Interface",
    [WITBOX_KIND_TUPLE] = "Tuple",
    [WITBOX_KIND_IMPORT] = "Import",
    [WITBOX_KIND_EXPORT] = "Export",
    [WITBOX_KIND_WORLD] = "World",
    [WITBOX_KIND_PACKAGE] = "Package",
    [WITBOX_KIND_CONSTRUCTOR] = "Constructor",
    [WITBOX_KIND_ASYNC] = "Async",
    [WITBOX_KIND_ID] = "Id",
    [WITBOX_KIND_EXPLICIT_ID] = "ExplicitId",
    [WITBOX_KIND_INTEGER] = "Integer",
    [WITBOX_KIND_INCLUDE] = "Include",
    [WITBOX_KIND_WITH] = "With",
};

/* The refusals that opening a text and stepping through it can answer. */
static const char *message(uint32_t number)
{
    switch (number) {
    case WITBOX_TOO_LONG: return "the file has more than 65536 bytes";
    case WITBOX_OUT_OF_MAP: return "there is no room left in the map";
    case WITBOX_ILL_FORMED: return "these bytes are no UTF-8";
    case WITBOX_CONTROL_CODEPOINT: return "a control character may not stand in a text";
    case WITBOX_DEPRECATED_CODEPOINT: return "a character that Unicode deprecates may not stand in a text";
    case WITBOX_FORBIDDEN_CODEPOINT: return "a character that changes the direction of text may not stand in a text";
    case WITBOX_UNEXPECTED: return "no token begins with this character";
    case WITBOX_UNTERMINATED_COMMENT: return "this block comment does not end";
    case WITBOX_INVALID_STRING_ELEMENT: return "a string may hold this character by an escape only";
    case WITBOX_INVALID_STRING_ESCAPE: return "a backslash with this character behind it is no escape";
    case WITBOX_WANTED_CHAR: return "a brace is wanted here";
    case WITBOX_UNEXPECTED_EOF: return "the text ends inside a string";
    case WITBOX_INVALID_UTF8: return "the bytes of this string are no UTF-8";
    case WITBOX_NUMBER_TOO_BIG: return "with this digit the number is above 4294967295";
    case WITBOX_LONE_UNDERSCORE: return "this number ends in an underscore";
    case WITBOX_INVALID_HEX_DIGIT: return "this is no hexadecimal digit";
    case WITBOX_INVALID_UNICODE_VALUE: return "this is the number of no character";
    default: return "refused";
    }
}

struct source {
    const char *file;
    const uint8_t *text;
    size_t length;
    uint32_t offset; /* where the text begins in the map */
};

/* The place in the text that a refusal points at, or -1. Some positions count from the text's start, some in the map. */
static long place_of(const struct source *source, uint32_t number, uint32_t position)
{
    switch (number) {
    case WITBOX_TOO_LONG:
    case WITBOX_OUT_OF_MAP: return -1;
    case WITBOX_UNEXPECTED:
    case WITBOX_UNTERMINATED_COMMENT:
    case WITBOX_UNEXPECTED_EOF:
    case WITBOX_INVALID_UTF8: return (long)(position - source->offset);
    default: return (long)position;
    }
}

/* Lines and columns count from 1, columns in characters. */
static void print_location(const struct source *source, size_t place)
{
    size_t line = 1, column = 1, i;

    for (i = 0; i < place; i++) {
        if (source->text[i] == '\n') {
            line++;
            column = 1;
        } else if ((source->text[i] & 0xC0) != 0x80) {
            column++;
        }
    }
    fprintf(stderr, ":%zu:%zu", line, column);
}

static void print_line(const struct source *source, size_t place)
{
    size_t start = place, end = place;

    while (start > 0 && source->text[start - 1] != '\n')
        start--;
    while (end < source->length && source->text[end] != '\n' && source->text[end] != '\r')
        end++;
    fprintf(stderr, "%.*s\n", (int)(end - start), (const char *)source->text + start);
}

/* The line is printed of an opened text only: another may hold characters that a terminal obeys. */
static void print_refusal(const struct source *source, int is_open, uint32_t number, uint32_t position, uint32_t detail)
{
    long place = place_of(source, number, position);

    fflush(stdout);
    fprintf(stderr, "%s", source->file);
    if (place >= 0)
        print_location(source, (size_t)place);
    fprintf(stderr, ": %s (%lu, %lu, %lu)\n", message(number), (unsigned long)number, (unsigned long)position,
            (unsigned long)detail);
    if (is_open && place >= 0)
        print_line(source, (size_t)place);
}

static void print_token(const struct source *source, const struct witbox_step *step)
{
    const char *token = (const char *)source->text + (step->start - source->offset);

    printf("%-13s %lu..%lu %.*s\n", kind_names[step->kind], (unsigned long)step->start, (unsigned long)step->end,
           (int)(step->end - step->start), token);
}

/* 0 where the text is accepted, else 1. */
static int print_tokens(const struct source *source)
{
    struct witbox_opened opened = witbox_open(source->text, source->length, source->offset);
    struct witbox_cursor cursor;

    if (opened.number != WITBOX_ACCEPTED) {
        print_refusal(source, 0, opened.number, opened.position, opened.detail);
        return 1;
    }
    cursor.at = opened.cursor;
    for (;;) {
        struct witbox_step step = witbox_next(source->text, source->length, source->offset, &cursor);
        if (step.number != WITBOX_ACCEPTED) {
            print_refusal(source, 1, step.number, step.position, step.detail);
            return 1;
        }
        if (step.kind == WITBOX_KIND_END)
            return 0;
        print_token(source, &step);
    }
}

/* Fills the buffer from a file: how many bytes, or -1. A file that is longer than the buffer is cut. */
static long read_file(const char *file, uint8_t *buffer, size_t room)
{
    FILE *stream = fopen(file, "rb");
    long length = -1;

    if (stream != NULL) {
        size_t count = fread(buffer, 1, room, stream);
        if (!ferror(stream))
            length = (long)count;
    }
    if (length < 0)
        fprintf(stderr, "%s: %s\n", file, strerror(errno));
    if (stream != NULL)
        fclose(stream);
    return length;
}

int main(int count, char **arguments)
{
    /* one byte over the cap, so that a longer file is refused and not read in part */
    static uint8_t text[WITBOX_TEXT_CAP + 1];
    uint32_t offset = 0;
    int status = 0, i;

    if (count < 2) {
        fprintf(stderr, "usage: host FILE...\n");
        return 2;
    }
    for (i = 1; i < count; i++) {
        long length = read_file(arguments[i], text, sizeof text);
        struct source source = {arguments[i], text, 0, 0};
        if (length < 0)
            return 2;
        source.length = (size_t)length;
        source.offset = offset;
        status |= print_tokens(&source);
        offset += (uint32_t)length;
    }
    return status;
}
