/*
 * witbox: the tokens of WIT texts, and the load order of what they depend on.
 *
 * Every function answers every input: any bytes, any numbers, any room. It keeps nothing, allocates nothing and calls nothing but
 * memcpy and memset, which a host without a C library must bring. A slice is a pointer and a count; where the count is 0 the pointer
 * is not read, but let it not be NULL (the address of any object will do). A lent table, buffer or cursor must not overlap another
 * argument of the call.
 *
 * Every answer begins with three numbers. `number` is 0 where the call is accepted, or one of enum witbox_number below, with a
 * `position` and a `detail` as its line says. A position is either a place (bytes from the start of the text) or a position in the
 * map (the text's offset + a place); each number always has the same one of the two. Fields that an answer does not fill are 0.
 *
 * What a refused call leaves: tables, buffers and orders as they were; cursors too, but for number 21 (witbox_expect).
 */
#ifndef WITBOX_H
#define WITBOX_H

#include <stddef.h>
#include <stdint.h>

#ifdef __cplusplus
extern "C" {
#endif

/* The caps. */
#define WITBOX_TEXT_CAP 65536u        /* bytes of a text, or of the names of a sheet */
#define WITBOX_MAP_CAP 4294967294u    /* the last position of the map: offset + length */
#define WITBOX_ROW_CAP 4096u          /* rows of a listing */
#define WITBOX_ROW_WORDS 3u           /* words of a row */
#define WITBOX_ITEM_CAP 256u          /* items of a sheet */
#define WITBOX_DEPENDENCY_CAP 2048u   /* dependencies of a sheet */

/* The numbers that come back. */
enum witbox_number {
    WITBOX_ACCEPTED = 0,
    /* text or names over WITBOX_TEXT_CAP bytes; detail: the length, at most 4294967295 */
    WITBOX_TOO_LONG = 1,
    /* offset + length over WITBOX_MAP_CAP */
    WITBOX_OUT_OF_MAP = 2,
    /* ill-formed UTF-8; position: a place */
    WITBOX_ILL_FORMED = 3,
    /* control character; place, detail: the character */
    WITBOX_CONTROL_CODEPOINT = 4,
    /* deprecated character; place, the character */
    WITBOX_DEPRECATED_CODEPOINT = 5,
    /* forbidden character; place, the character */
    WITBOX_FORBIDDEN_CODEPOINT = 6,
    /* unexpected character; map position, the character */
    WITBOX_UNEXPECTED = 7,
    /* block comment without end; map position of its start */
    WITBOX_UNTERMINATED_COMMENT = 8,
    /* 9 is not given any more, and is not used again */
    /* raw character that no string may hold; place, the character */
    WITBOX_INVALID_STRING_ELEMENT = 10,
    /* bad escape; place behind the backslash, the character */
    WITBOX_INVALID_STRING_ESCAPE = 11,
    /* `{` or `}` wanted; place of what stands there, the wanted character */
    WITBOX_WANTED_CHAR = 12,
    /* the text ends in a string; map position of the end */
    WITBOX_UNEXPECTED_EOF = 13,
    /* a string's bytes are ill-formed; map position of its quote, offset of the first ill-formed sequence among its bytes */
    WITBOX_INVALID_UTF8 = 14,
    /* number in \u{...} over 4294967295; place of the digit */
    WITBOX_NUMBER_TOO_BIG = 15,
    /* number in \u{...} ends in an underscore; place of its first digit */
    WITBOX_LONE_UNDERSCORE = 16,
    /* bad hexadecimal digit; place, the character */
    WITBOX_INVALID_HEX_DIGIT = 17,
    /* no such character; place of the `u`, the number */
    WITBOX_INVALID_UNICODE_VALUE = 18,
    /* identifier with an empty part; map position of the span */
    WITBOX_ID_PART_EMPTY = 19,
    /* bad character in an identifier; map position of the span, the character */
    WITBOX_INVALID_CHAR_IN_ID = 20,
    /* another token wanted; map position of the found token or of the end, 256 * wanted kind + found kind */
    WITBOX_WANTED = 21,
    /* bad span, or wanted kind above 66 */
    WITBOX_BAD_SPAN = 22,
    /* cursor beyond the text */
    WITBOX_BEYOND_TEXT = 23,
    /* over WITBOX_ROW_CAP rows; detail: how many */
    WITBOX_TOO_MANY_ROWS = 24,
    /* no room; detail: the bytes or words that are needed */
    WITBOX_NO_ROOM = 25,
    /* malformed sheet */
    WITBOX_MALFORMED_SHEET = 26,
    /* over WITBOX_ITEM_CAP items or WITBOX_DEPENDENCY_CAP dependencies */
    WITBOX_TOO_MANY_ITEMS = 27,
    /* repeated name; detail: the item */
    WITBOX_REPEATED_NAME = 28,
    /* a dependency that is not listed; detail: its index */
    WITBOX_ITEM_NOT_FOUND = 29,
    /* cycle; detail: the first listed dependency with neither end placed */
    WITBOX_TYPE_CYCLE = 30,
    /* a list that is no load order of the sheet; detail: its first index at fault, or the length of a short list without a fault */
    WITBOX_NOT_AN_ORDER = 33
};

/* The kinds of tokens. */
enum witbox_kind {
    WITBOX_KIND_WHITESPACE = 0,
    WITBOX_KIND_COMMENT = 1,
    WITBOX_KIND_EQUALS = 2,
    WITBOX_KIND_COMMA = 3,
    WITBOX_KIND_COLON = 4,
    WITBOX_KIND_PERIOD = 5,
    WITBOX_KIND_SEMICOLON = 6,
    WITBOX_KIND_LEFT_PAREN = 7,
    WITBOX_KIND_RIGHT_PAREN = 8,
    WITBOX_KIND_LEFT_BRACE = 9,
    WITBOX_KIND_RIGHT_BRACE = 10,
    WITBOX_KIND_LESS_THAN = 11,
    WITBOX_KIND_GREATER_THAN = 12,
    WITBOX_KIND_R_ARROW = 13,
    WITBOX_KIND_STAR = 14,
    WITBOX_KIND_AT = 15,
    WITBOX_KIND_SLASH = 16,
    WITBOX_KIND_PLUS = 17,
    WITBOX_KIND_MINUS = 18,
    WITBOX_KIND_STRING_LITERAL = 19,
    WITBOX_KIND_USE = 20,
    WITBOX_KIND_TYPE = 21,
    WITBOX_KIND_FUNC = 22,
    WITBOX_KIND_U8 = 23,
    WITBOX_KIND_U16 = 24,
    WITBOX_KIND_U32 = 25,
    WITBOX_KIND_U64 = 26,
    WITBOX_KIND_S8 = 27,
    WITBOX_KIND_S16 = 28,
    WITBOX_KIND_S32 = 29,
    WITBOX_KIND_S64 = 30,
    WITBOX_KIND_F32 = 31,
    WITBOX_KIND_F64 = 32,
    WITBOX_KIND_CHAR = 33,
    WITBOX_KIND_RECORD = 34,
    WITBOX_KIND_RESOURCE = 35,
    WITBOX_KIND_OWN = 36,
    WITBOX_KIND_BORROW = 37,
    WITBOX_KIND_FLAGS = 38,
    WITBOX_KIND_VARIANT = 39,
    WITBOX_KIND_ENUM = 40,
    WITBOX_KIND_BOOL = 41,
    WITBOX_KIND_STRING = 42,
    WITBOX_KIND_OPTION = 43,
    WITBOX_KIND_RESULT = 44,
    WITBOX_KIND_FUTURE = 45,
    WITBOX_KIND_STREAM = 46,
    WITBOX_KIND_ERROR_CONTEXT = 47,
    WITBOX_KIND_LIST = 48,
    WITBOX_KIND_MAP = 49,
    WITBOX_KIND_UNDERSCORE = 50,
    WITBOX_KIND_AS = 51,
    WITBOX_KIND_FROM = 52,
    WITBOX_KIND_STATIC = 53,
    WITBOX_KIND_INTERFACE = 54,
    WITBOX_KIND_TUPLE = 55,
    WITBOX_KIND_IMPORT = 56,
    WITBOX_KIND_EXPORT = 57,
    WITBOX_KIND_WORLD = 58,
    WITBOX_KIND_PACKAGE = 59,
    WITBOX_KIND_CONSTRUCTOR = 60,
    WITBOX_KIND_ASYNC = 61,
    WITBOX_KIND_ID = 62,
    WITBOX_KIND_EXPLICIT_ID = 63,
    WITBOX_KIND_INTEGER = 64,
    WITBOX_KIND_INCLUDE = 65,
    WITBOX_KIND_WITH = 66,
    WITBOX_KIND_END = 67 /* no kind: what a step answers at the end of the text */
};

/* A place in a text: where the next step reads. Start from witbox_open's, or from 0. */
struct witbox_cursor {
    uint32_t at;
};

struct witbox_opened {
    uint32_t number, position, detail;
    uint32_t cursor; /* where the first step is to read: 3 behind a byte order mark, else 0 */
};

struct witbox_step {
    uint32_t number, position, detail;
    uint32_t kind;       /* the token's kind; WITBOX_KIND_END at the end of the text, and where witbox_eat says no */
    uint32_t start, end; /* its span: map positions */
};

struct witbox_listed {
    uint32_t number, position, detail;
    uint32_t count; /* how many rows were written */
};

struct witbox_decoded {
    uint32_t number, position, detail;
    uint32_t count; /* how many bytes were written */
};

struct witbox_named {
    uint32_t number, position, detail;
    uint32_t place, length; /* the identifier, without its `%`: a part of the text */
};

struct witbox_sorted {
    uint32_t number, position, detail;
    uint32_t settled; /* with 0 and 30: how many listed dependencies have their target placed */
};

struct witbox_verdict {
    uint32_t number, position, detail;
};

/*
 * Opens a text whose first byte stands at `offset` in the map: checks 1, 2, then 3 over the whole text, then 4, 5 and 6 for the
 * first character that a text may not hold. Nothing of the text is kept: the steps below take it again, and take text that was
 * never opened too.
 */
struct witbox_opened witbox_open(const uint8_t *text, size_t length, uint32_t offset);

/*
 * The token at the cursor, blanks and comments too. The cursor then stands behind it. At the end of the text the kind is
 * WITBOX_KIND_END and the cursor stays. Checks 1, 2 and 23 first; then whatever the token is refused for.
 */
struct witbox_step witbox_next_raw(const uint8_t *text, size_t length, uint32_t offset, struct witbox_cursor *cursor);

/* The same for the next token that is no blank and no comment. At the end of the text the cursor then stands there. */
struct witbox_step witbox_next(const uint8_t *text, size_t length, uint32_t offset, struct witbox_cursor *cursor);

/*
 * The next token that is no blank and no comment, if it is of the wanted kind: then the cursor stands behind it. Else the kind is
 * WITBOX_KIND_END and the cursor stays. Checks 1, 2, 23, and 22 for a wanted kind above 66, first.
 */
struct witbox_step witbox_eat(const uint8_t *text, size_t length, uint32_t offset, uint32_t wanted,
                              struct witbox_cursor *cursor);

/*
 * The same, but another token is a refusal, 21, and then the cursor stands behind the token that was found, or at the end of the
 * text.
 */
struct witbox_step witbox_expect(const uint8_t *text, size_t length, uint32_t offset, uint32_t wanted,
                                 struct witbox_cursor *cursor);

/*
 * Opens a text and lists all its tokens: a row of WITBOX_ROW_WORDS words (kind, start, end; map positions) for each, at the front
 * of the table; the words behind the rows stay as they were. Checks what opening checks, then each token, then 24, then 25 where
 * the table has too few words: the detail is how many are needed.
 */
struct witbox_listed witbox_list_raw(const uint8_t *text, size_t length, uint32_t offset, uint32_t *table, size_t words);

/* The same without the rows of blanks and comments. */
struct witbox_listed witbox_list(const uint8_t *text, size_t length, uint32_t offset, uint32_t *table, size_t words);

/*
 * Decodes the string literal of a span (map positions, its quotes included) into a buffer: the bytes of its value at the front, the
 * rest as it was. Checks 1, 2, then 22 unless the span is exactly a string literal, then 25 with the bytes that are needed.
 */
struct witbox_decoded witbox_string_literal(const uint8_t *text, size_t length, uint32_t offset, uint32_t start, uint32_t end,
                                            uint8_t *buffer, size_t room);

/* Checks the identifier of a span (map positions): 1, 2, 22, then 19, 20 and 3 part by part. Answers it as a part of the text. */
struct witbox_named witbox_parse_id(const uint8_t *text, size_t length, uint32_t offset, uint32_t start, uint32_t end);

/* The same for an identifier behind a `%`; 22 where no `%` leads. The answer leaves the `%` out. */
struct witbox_named witbox_parse_explicit_id(const uint8_t *text, size_t length, uint32_t offset, uint32_t start, uint32_t end);

/*
 * The load order of a dependency sheet. The sheet is 32-bit words: N items and E dependencies as
 *     N, E, 5, 5 + 4 N, 5 + 4 N + 4 E,
 *     for each item: place of its name, length of its name, its first dependency, how many it has,
 *     for each dependency: place of its name, length of its name, start and end of a span (carried, not judged).
 * Places count bytes of `names`. An item's dependencies follow those of the item before it. On success the N item numbers are at
 * the front of the order, each behind all that it depends on and otherwise the earliest listed first; the rest of the order stays
 * as it was. Checks 1 for the names, 26, 27, 26, 28, 29, 25 with the words that are needed, 30.
 */
struct witbox_sorted witbox_toposort(const uint32_t *sheet, size_t words, const uint8_t *names, size_t names_length,
                                     uint32_t *order, size_t room);

/*
 * Checks a load order that somebody proposes for a sheet: a list of item numbers. It is accepted exactly if it has each of the N items
 * once and nothing else, with every dependency before each item that needs it; it need not be the order that witbox_toposort gives.
 * Checks 1, 26, 27, 26, 28 and 29 as witbox_toposort does; then 33, with the first index of the list whose number is N or more, comes
 * again, or is that of an item with a dependency not earlier in the list, or with the length of a short list without such a fault.
 */
struct witbox_verdict witbox_check_order(const uint32_t *sheet, size_t words, const uint8_t *names, size_t names_length,
                                         const uint32_t *list, size_t length);

/*
 * Proposes a load order for a sheet: N item numbers at the front of the list, which witbox_check_order accepts; the rest of the list
 * stays as it was. It offers one for every sheet that witbox_toposort accepts, and else refuses as that does: today it is that order.
 */
struct witbox_sorted witbox_propose(const uint32_t *sheet, size_t words, const uint8_t *names, size_t names_length,
                                     uint32_t *list, size_t room);

#ifdef __cplusplus
}
#endif

#endif
