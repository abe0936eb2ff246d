/* Jeanzircon: HTML as the WHATWG HTML Standard reads it, and so do browsers (known differences: docs/PROFILE.md). The header of the
 * library for C.
 *
 * The functions of the library, jz_version, jz_text, jz_tree, jz_page and jz_table, are proved: what they promise is said at each. What
 * else is here is plain C that prepares their arguments and indexes what they wrote.
 *
 * Who owns what. Every buffer is the caller's. The library keeps no pointer after a call, and has no state of its own: nothing is
 * opened, and it makes nothing that is to be freed. What the plain C makes is: a jz_doc by jz_free, a jz_feeder by jz_end or jz_drop,
 * texts, tables and files by free().
 * What is written. Each call writes its answer. Where all has room, jz_text and jz_table also write to `output`, jz_tree to `rows` and
 * `words`, jz_page to these and, where wanted, to `errors`, `text` and `origins`; where not, or at any other status, to none of them.
 * Units. Lengths and places are bytes, from 0. Texts are UTF-8 and end with no NUL.
 * Errors. Every call on an input returns a status: 0, a refusal, or a fault of the call. A refusal of the input has its place.
 * Threads. Any number of threads may call at once. They may share the input, the options and the lists, which no call writes to, and no
 * buffer that is written. Not from a signal handler.
 * Memory. The library calls malloc, realloc and free, and frees all that it took before it returns. Where they give none the status is
 * JZ_MEMORY. A call takes what its parse takes, and for a text as much as it writes of it; rows, words and errors are written straight
 * into their rooms. It needs some 80 KB of stack, however the input is nested.
 */
#ifndef JEANZIRCON_H
#define JEANZIRCON_H

#include <stddef.h>
#include <stdint.h>
#include <stdio.h>
#include <stdlib.h>
#include <string.h>
#ifdef __GLIBC__
#include <malloc.h>
#endif
#ifdef __linux__
#include <sys/mman.h>
#endif
#ifdef __has_include
#if __has_include(<sys/random.h>)
#include <sys/random.h>
#define JZ_GETRANDOM
#endif
#endif

#ifdef __cplusplus
extern "C" {
#endif

/* The version of this header, and as a number: its major number * 10000 + its minor number * 100 + its patch number. */
#define JZ_VERSION "0.1.0"
#define JZ_VERSION_NUMBER 100

/* The JZ_VERSION_NUMBER of the library that is linked. */
uint32_t jz_version(void);

/* The statuses. */
enum {
    JZ_OK = 0,
    /* Refusals. `at` is the byte, but at JZ_BAD_QUIRKS the line of the list, from 1. */
    JZ_NOT_UTF8 = 1,       /* the first byte of what is not UTF-8 */
    JZ_OUT_OF_PROFILE = 2, /* a start tag that is left out of the profile; `detail` says which (jz_detail_name) */
    JZ_TOO_LARGE = 3,      /* the input is longer than 1,073,741,824 bytes */
    JZ_TOO_MANY_NODES = 4,
    JZ_TOO_DEEP = 5,
    JZ_MEMORY = 6,
    JZ_BAD_CONTEXT = 8, /* no fragment may be in an element of this name; or JZ_TOKENS or JZ_PLAIN_DOCUMENT of a fragment, JZ_PLAIN of a document */
    JZ_BAD_TABLE = 9,   /* `detail` says what is wrong (jz_detail_name) */
    JZ_BAD_QUIRKS = 10,
    JZ_BAD_LIMITS = 11,
    /* Faults of the call. */
    JZ_TOO_SHORT = 13,  /* there is too little room: the answer says how much is needed */
    JZ_NOT_TEXT = 14,   /* the context's name or a list is not UTF-8 */
    JZ_BAD_NUMBER = 15, /* a task, a wish, an escaping, a piece or a choice on bad bytes that is none */
    JZ_NULL = 16,       /* a null pointer where there must be none; returned by the plain C below, not by the library */
    JZ_BAD_SIZE = 17    /* options of a size that the library does not know */
};

/* The tasks of jz_text: what is made of the input. The forms of the lines are in docs/PROFILE.md. */
enum {
    JZ_TOKENS = 0, /* a line for each token of a document */
    JZ_TREE = 1,   /* the tree, a line for each node and each attribute */
    JZ_ERRORS = 2, /* a line for each parse error: its byte and its code */
    JZ_WRITE = 3,  /* the tree as HTML */
    JZ_PLAIN = 4,  /* "plain\n" or "not plain\n": whether a fragment is plain */
    JZ_PLAIN_DOCUMENT = 5 /* the same of a document: one that is plain comes back when what JZ_WRITE gives is parsed */
};

/* A fragment that is plain comes back, as the same nodes, when what is written of it inside an element of the context's name is parsed
 * in that context. That is what JZ_WRITE gives, but in style, script, iframe and noembed: it writes a fragment as it stands in its root,
 * which has no such name, so its text is escaped there, and does not come back. What does is the text as it is (jz_data). */

/* Bytes that are lent for a call. `bytes` must not be null and must be readable for `length` bytes; an empty one is JZ_NO_BYTES. */
typedef struct jz_bytes {
    const uint8_t *bytes;
    size_t length;
} jz_bytes;

#define JZ_NO_BYTES { (const uint8_t *)"", 0 }

/* What is given with the input. Begin with JZ_STANDARD of jeanzircon_data.h, which has both of the Standard's lists, as browsers have,
 * draw the keys by jz_draw_keys, and change what you need. JZ_DEFAULTS has no list and no keys.
 *
 * A later version may add fields at the end, and then takes each earlier size too. A size that a library does not know, as that of a later
 * version, it refuses before all else (JZ_BAD_SIZE), and reads no other field, so that no wish is left out in silence. */
typedef struct jz_options {
    size_t size;        /* sizeof(jz_options) */
    jz_bytes context;   /* the name of the element in which a fragment is; empty: the input is a document */
    jz_bytes entities;  /* the table of character references: JSON (data/entities.json), or what jz_table made of it; empty: five of them */
    jz_bytes quirks;    /* the quirks list (data/quirks.txt); empty: no list */
    uint64_t nodes;     /* the most nodes: 16 to 16,777,216 */
    uint64_t open;      /* the most open elements: 16 to 1,048,576 */
    uint64_t piece;     /* how many bytes are read at a time: 1 to 65,536; no answer depends on it */
    uint64_t key_low;   /* 16 random bytes (jz_draw_keys). 0, like all that is known, is unsafe for a stranger's page: one can */
    uint64_t key_high;  /* be made that takes the square of its length. No answer depends on them */
    uint32_t escaping;  /* of HTML: 1, or 2, which escapes < and > in attribute values */
    uint32_t bad_bytes; /* 0 refuses bytes that are not UTF-8; 1 reads each bad part as U+FFFD */
} jz_options;

#define JZ_DEFAULTS { sizeof(jz_options), JZ_NO_BYTES, JZ_NO_BYTES, JZ_NO_BYTES, 16777216, 1048576, 65536, 0, 0, 1, 0 }

/* How a call went. */
typedef struct jz_answer {
    uint32_t status;
    uint32_t detail; /* what a refusal names, from 1; 0 if nothing */
    uint64_t at;     /* where the input is refused */
    uint64_t length; /* the bytes of the text, or of the words of a tree, whether there was room for them or not */
    uint64_t nodes;  /* the nodes of a tree, whether there was room for them or not */
} jz_answer;

/* Makes the text of a task of an input, and writes it to the beginning of `output`, if `room` is enough.
 *
 * Promised: the text is the one that the program prints for the same input and options, however it is read in pieces. Where the status
 * is not JZ_OK, nothing is written; at JZ_TOO_SHORT `answer->length` is the room that is needed, and the text was measured, not kept.
 * Required, and not checked: no pointer is null, those in `options` neither, nor `output` where `room` is 0 (jz_text_room asks for the
 * room without one); `input` is readable for `length` bytes and `output` writable for `room`; `output` and `answer` overlap nothing
 * else that is handed in; each length is below 2^63; nobody writes to what is lent, nor reads `output` and `answer`, until the call
 * returns. */
uint32_t jz_text(uint32_t task, const uint8_t *input, size_t length, const jz_options *options, uint8_t *output, size_t room,
                 jz_answer *answer);

/* A node as jz_tree writes it. A link is the number of a node, or JZ_NONE. */
typedef struct jz_row {
    uint32_t number;
    uint32_t kind; /* JZ_DOCTYPE to JZ_TEXT_NODE */
    uint32_t parent;
    uint32_t first_child;
    uint32_t next;
} jz_row;

enum { JZ_DOCUMENT = 0, JZ_DOCTYPE = 1, JZ_ELEMENT = 2, JZ_COMMENT = 3, JZ_TEXT_NODE = 4 };

#define JZ_NONE 0xFFFFFFFFu

/* Makes the tree of an input, and writes its nodes in tree order to `rows` and their words to `words`, if all of them have room.
 *
 * Promised: the rows are those of the nodes in the document (number 0), or in a fragment's root element (number 1), each before those
 * inside it; the words of each node, in the same order, are the name of an element and the name and the value of each of its
 * attributes, the name and both identifiers of a doctype, the data of a comment, or the characters of a text. A word ends with the
 * byte 0xFF, and a node's words with 0xFE, which are in no UTF-8 text. Where the status is not JZ_OK, nothing is written; at
 * JZ_TOO_SHORT the answer has the rooms that are needed.
 * Required, and not checked: as at jz_text, of both rooms (jz_tree_rooms asks for them without one); `row_room` counts rows. */
uint32_t jz_tree(const uint8_t *input, size_t length, const jz_options *options, jz_row *rows, size_t row_room, uint8_t *words,
                 size_t word_room, jz_answer *answer);

/* The codes of parse errors, each with its text, as the HTML Standard spells it (#parse-errors). A code of the tree rules, for which the
 * Standard has none, is "tree-" and the insertion mode. A parse error refuses nothing. */
#define JZ_ERROR_CODES(code) \
    code(CONTROL_CHARACTER_IN_INPUT_STREAM, "control-character-in-input-stream") \
    code(NONCHARACTER_IN_INPUT_STREAM, "noncharacter-in-input-stream") \
    code(REPLACED_BYTES, "replaced-bytes") \
    code(ABRUPT_CLOSING_OF_EMPTY_COMMENT, "abrupt-closing-of-empty-comment") \
    code(ABRUPT_DOCTYPE_PUBLIC_IDENTIFIER, "abrupt-doctype-public-identifier") \
    code(ABRUPT_DOCTYPE_SYSTEM_IDENTIFIER, "abrupt-doctype-system-identifier") \
    code(ABSENCE_OF_DIGITS_IN_NUMERIC_CHARACTER_REFERENCE, "absence-of-digits-in-numeric-character-reference") \
    code(CDATA_IN_HTML_CONTENT, "cdata-in-html-content") \
    code(CHARACTER_REFERENCE_OUTSIDE_UNICODE_RANGE, "character-reference-outside-unicode-range") \
    code(CONTROL_CHARACTER_REFERENCE, "control-character-reference") \
    code(DUPLICATE_ATTRIBUTE, "duplicate-attribute") \
    code(END_TAG_WITH_ATTRIBUTES, "end-tag-with-attributes") \
    code(END_TAG_WITH_TRAILING_SOLIDUS, "end-tag-with-trailing-solidus") \
    code(EOF_BEFORE_TAG_NAME, "eof-before-tag-name") \
    code(EOF_IN_COMMENT, "eof-in-comment") \
    code(EOF_IN_DOCTYPE, "eof-in-doctype") \
    code(EOF_IN_SCRIPT_HTML_COMMENT_LIKE_TEXT, "eof-in-script-html-comment-like-text") \
    code(EOF_IN_TAG, "eof-in-tag") \
    code(INCORRECTLY_CLOSED_COMMENT, "incorrectly-closed-comment") \
    code(INCORRECTLY_OPENED_COMMENT, "incorrectly-opened-comment") \
    code(INVALID_CHARACTER_SEQUENCE_AFTER_DOCTYPE_NAME, "invalid-character-sequence-after-doctype-name") \
    code(INVALID_FIRST_CHARACTER_OF_TAG_NAME, "invalid-first-character-of-tag-name") \
    code(MISSING_ATTRIBUTE_VALUE, "missing-attribute-value") \
    code(MISSING_DOCTYPE_NAME, "missing-doctype-name") \
    code(MISSING_DOCTYPE_PUBLIC_IDENTIFIER, "missing-doctype-public-identifier") \
    code(MISSING_DOCTYPE_SYSTEM_IDENTIFIER, "missing-doctype-system-identifier") \
    code(MISSING_END_TAG_NAME, "missing-end-tag-name") \
    code(MISSING_QUOTE_BEFORE_DOCTYPE_PUBLIC_IDENTIFIER, "missing-quote-before-doctype-public-identifier") \
    code(MISSING_QUOTE_BEFORE_DOCTYPE_SYSTEM_IDENTIFIER, "missing-quote-before-doctype-system-identifier") \
    code(MISSING_SEMICOLON_AFTER_CHARACTER_REFERENCE, "missing-semicolon-after-character-reference") \
    code(MISSING_WHITESPACE_AFTER_DOCTYPE_PUBLIC_KEYWORD, "missing-whitespace-after-doctype-public-keyword") \
    code(MISSING_WHITESPACE_AFTER_DOCTYPE_SYSTEM_KEYWORD, "missing-whitespace-after-doctype-system-keyword") \
    code(MISSING_WHITESPACE_BEFORE_DOCTYPE_NAME, "missing-whitespace-before-doctype-name") \
    code(MISSING_WHITESPACE_BETWEEN_ATTRIBUTES, "missing-whitespace-between-attributes") \
    code(MISSING_WHITESPACE_BETWEEN_DOCTYPE_PUBLIC_AND_SYSTEM_IDENTIFIERS, "missing-whitespace-between-doctype-public-and-system-identifiers") \
    code(NESTED_COMMENT, "nested-comment") \
    code(NONCHARACTER_CHARACTER_REFERENCE, "noncharacter-character-reference") \
    code(NULL_CHARACTER_REFERENCE, "null-character-reference") \
    code(SURROGATE_CHARACTER_REFERENCE, "surrogate-character-reference") \
    code(UNEXPECTED_CHARACTER_AFTER_DOCTYPE_SYSTEM_IDENTIFIER, "unexpected-character-after-doctype-system-identifier") \
    code(UNEXPECTED_CHARACTER_IN_ATTRIBUTE_NAME, "unexpected-character-in-attribute-name") \
    code(UNEXPECTED_CHARACTER_IN_UNQUOTED_ATTRIBUTE_VALUE, "unexpected-character-in-unquoted-attribute-value") \
    code(UNEXPECTED_EQUALS_SIGN_BEFORE_ATTRIBUTE_NAME, "unexpected-equals-sign-before-attribute-name") \
    code(UNEXPECTED_NULL_CHARACTER, "unexpected-null-character") \
    code(UNEXPECTED_QUESTION_MARK_INSTEAD_OF_TAG_NAME, "unexpected-question-mark-instead-of-tag-name") \
    code(UNEXPECTED_SOLIDUS_IN_TAG, "unexpected-solidus-in-tag") \
    code(UNKNOWN_NAMED_CHARACTER_REFERENCE, "unknown-named-character-reference") \
    code(NON_VOID_HTML_ELEMENT_START_TAG_WITH_TRAILING_SOLIDUS, "non-void-html-element-start-tag-with-trailing-solidus") \
    code(TREE_AFTER_AFTER_BODY, "tree-after-after-body") \
    code(TREE_AFTER_BODY, "tree-after-body") \
    code(TREE_AFTER_HEAD, "tree-after-head") \
    code(TREE_BEFORE_HEAD, "tree-before-head") \
    code(TREE_BEFORE_HTML, "tree-before-html") \
    code(TREE_IN_BODY, "tree-in-body") \
    code(TREE_IN_CAPTION, "tree-in-caption") \
    code(TREE_IN_CELL, "tree-in-cell") \
    code(TREE_IN_COLUMN_GROUP, "tree-in-column-group") \
    code(TREE_IN_HEAD, "tree-in-head") \
    code(TREE_IN_HEAD_NOSCRIPT, "tree-in-head-noscript") \
    code(TREE_IN_ROW, "tree-in-row") \
    code(TREE_IN_TABLE, "tree-in-table") \
    code(TREE_IN_TABLE_BODY, "tree-in-table-body") \
    code(TREE_IN_TABLE_TEXT, "tree-in-table-text") \
    code(TREE_INITIAL, "tree-initial") \
    code(TREE_TEXT, "tree-text")

#define JZ_ERROR_CODE(name, text) JZ_ERROR_##name,
/* JZ_ERROR_CONTROL_CHARACTER_IN_INPUT_STREAM is 0, and so on; JZ_ERROR_COUNT is how many there are. */
typedef enum jz_error_code { JZ_ERROR_CODES(JZ_ERROR_CODE) JZ_ERROR_COUNT } jz_error_code;
#undef JZ_ERROR_CODE

/* A parse error as jz_page writes it. */
typedef struct jz_error {
    uint64_t at;   /* its byte in the input; that of an error at the end is the input's length */
    uint32_t code; /* a jz_error_code */
} jz_error;

/* How a node came to be, as jz_page writes it. */
typedef struct jz_origin {
    uint64_t at;        /* the first byte of the token in whose step it was made; of a text, its first character */
    uint32_t in_source; /* 1 where that token is its own: an element's start tag, a comment, a doctype, a text's characters; 0 of an element
                           that was made again, or that the token implied, as html, head, body and tbody */
    uint32_t again_of;  /* the number of the element that it was made again of: reconstructed, or by the adoption agency; or JZ_NONE */
} jz_origin;

/* What jz_page makes beside the tree: a sum of these, or 0. */
enum { JZ_WANT_ERRORS = 1, JZ_WANT_TEXT = 2, JZ_WANT_ORIGINS = 4 };

/* How a call of jz_page went. A length is answered whether there was room or not; that of a part that is not wanted is 0. */
typedef struct jz_page_answer {
    uint32_t status; /* this and the next two as in jz_answer */
    uint32_t detail;
    uint64_t at;
    uint64_t nodes;  /* the nodes of the tree: its rows, and where they are wanted its origins */
    uint64_t words;  /* the bytes of their words */
    uint64_t errors; /* the parse errors */
    uint64_t text;   /* the bytes of the HTML */
} jz_page_answer;

/* Makes the tree of an input, and where they are wanted its parse errors, its HTML and how its nodes came to be, all by one parse.
 *
 * Promised: rows and words are those of jz_tree, `errors` has a row for each line of JZ_ERRORS, in the same order, `text` is that of
 * JZ_WRITE, and `origins` has as many rows as `rows`, in the same order. Where the status is not JZ_OK, nothing is written to any room; at
 * JZ_TOO_SHORT the answer has the rooms that are needed.
 * Required, and not checked: as at jz_text, of all five rooms; `error_room` and `origin_room` count rows. No two of them overlap. */
uint32_t jz_page(uint32_t wants, const uint8_t *input, size_t length, const jz_options *options, jz_row *rows, size_t row_room,
                 uint8_t *words, size_t word_room, jz_error *errors, size_t error_room, uint8_t *text, size_t text_room,
                 jz_origin *origins, size_t origin_room, jz_page_answer *answer);

/* Writes the flat form of a table of character references to the beginning of `output`, if `room` is enough. `entities` is as in
 * jz_options. The flat form is read in far less time than JSON: make it once, and hand it in as the table of each call.
 *
 * Promised: it is a form of the same table, so that no answer changes. Where the status is not JZ_OK, nothing is written; at
 * JZ_TOO_SHORT `answer->length` is the room that is needed. JZ_NOT_TEXT and JZ_BAD_TABLE are as at jz_text.
 * Required, and not checked: as at jz_text. */
uint32_t jz_table(const uint8_t *entities, size_t length, uint8_t *output, size_t room, jz_answer *answer);

/* The layouts that the library has, whose pointers are of 64 bits. A compiler that lays out another stops here. */
#if defined __cplusplus && __cplusplus >= 201103L
#define JZ_IS(name, condition) static_assert(condition, #name)
#elif !defined __cplusplus && defined __STDC_VERSION__ && __STDC_VERSION__ >= 201112L
#define JZ_IS(name, condition) _Static_assert(condition, #name)
#else
#define JZ_IS(name, condition) typedef char name[(condition) ? 1 : -1]
#endif
#define JZ_HAS(type, field, place, size) (offsetof(type, field) == place && sizeof(((type *)0)->field) == size)

JZ_IS(jz_layout_of_bytes, sizeof(jz_bytes) == 16 && JZ_HAS(jz_bytes, bytes, 0, 8) && JZ_HAS(jz_bytes, length, 8, 8));
JZ_IS(jz_layout_of_options, sizeof(jz_options) == 104 && JZ_HAS(jz_options, size, 0, 8) && JZ_HAS(jz_options, context, 8, 16)
      && JZ_HAS(jz_options, entities, 24, 16) && JZ_HAS(jz_options, quirks, 40, 16) && JZ_HAS(jz_options, nodes, 56, 8)
      && JZ_HAS(jz_options, open, 64, 8) && JZ_HAS(jz_options, piece, 72, 8) && JZ_HAS(jz_options, key_low, 80, 8)
      && JZ_HAS(jz_options, key_high, 88, 8) && JZ_HAS(jz_options, escaping, 96, 4) && JZ_HAS(jz_options, bad_bytes, 100, 4));
JZ_IS(jz_layout_of_answer, sizeof(jz_answer) == 32 && JZ_HAS(jz_answer, status, 0, 4) && JZ_HAS(jz_answer, detail, 4, 4)
      && JZ_HAS(jz_answer, at, 8, 8) && JZ_HAS(jz_answer, length, 16, 8) && JZ_HAS(jz_answer, nodes, 24, 8));
JZ_IS(jz_layout_of_page_answer, sizeof(jz_page_answer) == 48 && JZ_HAS(jz_page_answer, status, 0, 4)
      && JZ_HAS(jz_page_answer, detail, 4, 4) && JZ_HAS(jz_page_answer, at, 8, 8) && JZ_HAS(jz_page_answer, nodes, 16, 8)
      && JZ_HAS(jz_page_answer, words, 24, 8) && JZ_HAS(jz_page_answer, errors, 32, 8) && JZ_HAS(jz_page_answer, text, 40, 8));
JZ_IS(jz_layout_of_row, sizeof(jz_row) == 20 && JZ_HAS(jz_row, number, 0, 4) && JZ_HAS(jz_row, kind, 4, 4)
      && JZ_HAS(jz_row, parent, 8, 4) && JZ_HAS(jz_row, first_child, 12, 4) && JZ_HAS(jz_row, next, 16, 4));
JZ_IS(jz_layout_of_origin, sizeof(jz_origin) == 16 && JZ_HAS(jz_origin, at, 0, 8) && JZ_HAS(jz_origin, in_source, 8, 4)
      && JZ_HAS(jz_origin, again_of, 12, 4));
JZ_IS(jz_layout_of_error, sizeof(jz_error) == 16 && JZ_HAS(jz_error, at, 0, 8) && JZ_HAS(jz_error, code, 8, 4));
#undef JZ_HAS
#undef JZ_IS

/* From here on plain C, which is not proved: keys, files, names for numbers, what asks for room or takes memory, the tree with an index. */

/* Draws the keys of the hashes from the system. Once a program is enough. Returns 1, or 0 where the system gives no random bytes. */
static inline int jz_draw_keys(jz_options *options) {
    uint64_t keys[2];
    int is_drawn = 0;
#ifdef JZ_GETRANDOM
    is_drawn = (long)getrandom(keys, sizeof keys, 0) == (long)sizeof keys;
#endif
    if (!is_drawn) {
        FILE *file = fopen("/dev/urandom", "rb");
        is_drawn = file && fread(keys, sizeof keys, 1, file) == 1;
        if (file) fclose(file);
    }
    if (!options || !is_drawn) return 0;
    options->key_low = keys[0];
    options->key_high = keys[1];
    return 1;
}

/* All bytes of a file, in memory that the caller frees with free(); null where it cannot be read, or memory runs out. */
static inline uint8_t *jz_read_file(const char *name, size_t *length) {
    FILE *file = fopen(name, "rb");
    uint8_t *bytes = NULL, *more;
    size_t room = 0, got = 1;
    *length = 0;
    if (!file) return NULL;
    while (got) {
        if (room - *length < 4096) {
            room = 2 * room + 8192;
            if (!(more = (uint8_t *)realloc(bytes, room))) break;
            bytes = more;
        }
        got = fread(bytes + *length, 1, room - *length, file);
        *length += got;
    }
    if (got || ferror(file)) {
        free(bytes);
        bytes = NULL;
    }
    fclose(file);
    return bytes;
}

/* The name of a status, as "NotUtf8". */
static inline const char *jz_status_name(uint32_t status) {
    static const char *const names[] = { "Ok", "NotUtf8", "OutOfProfile", "TooLarge", "TooManyNodes", "TooDeep", "Memory", "Read",
                                         "BadContext", "BadTable", "BadQuirks", "BadLimits", "Write", "TooShort", "NotText",
                                         "BadNumber", "Null", "BadSize" };
    return status < sizeof names / sizeof *names ? names[status] : "?";
}

/* The text of a parse error's code, as "eof-in-tag". */
static inline const char *jz_error_name(uint32_t code) {
#define JZ_ERROR_TEXT(name, text) text,
    static const char *const texts[] = { JZ_ERROR_CODES(JZ_ERROR_TEXT) };
#undef JZ_ERROR_TEXT
    return code < sizeof texts / sizeof *texts ? texts[code] : "?";
}

/* What a refusal names, by the status and the detail of any answer: an element, or what is wrong with a table; "" if nothing. */
static inline const char *jz_detail_of(uint32_t status, uint32_t detail) {
    static const char *const elements[] = { "", "math", "svg", "template", "select", "option", "optgroup", "frame", "frameset", "keygen" };
    static const char *const causes[] = { "", "Json", "Shape", "Key", "Codepoints", "Characters" };
    if (status == JZ_OUT_OF_PROFILE && detail < sizeof elements / sizeof *elements) return elements[detail];
    if (status == JZ_BAD_TABLE && detail < sizeof causes / sizeof *causes) return causes[detail];
    return "";
}

static inline const char *jz_detail_name(const jz_answer *answer) { return jz_detail_of(answer->status, answer->detail); }

static inline const char *jz_page_detail_name(const jz_page_answer *answer) { return jz_detail_of(answer->status, answer->detail); }

static inline int jz_is_letter_or_digit(uint8_t byte) { return (byte | 32u) - 'a' <= 25u || byte - (unsigned)'0' <= 9u; }

/* The entries of a table whose names have the same first two letters: the lower six bits of each letter, and the length of their flat form. */
typedef struct jz_part {
    uint16_t letters, length;
} jz_part;

/* What an input needs of the Standard's table, `table` with jz_standard_parts, and is read in far less time: JZ_NO_BYTES where it has no names but
 * &amp; &lt; &gt; &quot; and &nbsp;, else, in `room`, the entries that begin as its names do, or the whole table where this is too little room, as
 * 8,192 bytes seldom are. No answer on the input depends on it. */
static inline jz_bytes jz_entities_for(const uint8_t *input, size_t length, jz_bytes table, const jz_part *parts, uint8_t *room, size_t size) {
    static const char *const core[] = { "amp;", "lt;", "gt;", "quot;", "nbsp;" };
    static const jz_bytes none = JZ_NO_BYTES;
    const uint8_t *at = input, *const end = input + length, *from = table.bytes, *const last = from + table.length;
    uint8_t wanted[4096] = { 0 };
    size_t used = 0, i = 0;
    while (at < end && (at = (const uint8_t *)memchr(at, '&', (size_t)(end - at)))) {
        size_t left = (size_t)(end - ++at);
        if (!left || !jz_is_letter_or_digit(*at)) continue;
        for (i = i < 5 ? 0 : 5; i < 5 && (strlen(core[i]) > left || memcmp(at, core[i], strlen(core[i]))); i++) continue;
        if (left > 1) wanted[(at[0] & 63) << 6 | (at[1] & 63)] = 1;
    }
    if (i < 5) return none;
    if (!size) return table;
    for (room[used++] = *from++; from < last; from += (parts++)->length) {
        if (!wanted[parts->letters]) continue;
        if (size - used < parts->length) return table;
        memcpy(room + used, from, parts->length);
        used += parts->length;
    }
    table.bytes = room;
    table.length = used;
    return table;
}

/* Whether a text begins here, in upper or lower letters. */
static inline int jz_begins(const uint8_t *at, const uint8_t *end, const void *text, size_t length) {
    const uint8_t *wanted = (const uint8_t *)text;
    if ((size_t)(end - at) < length) return 0;
    for (; length; length--, at++, wanted++)
        if (*at != *wanted && ((*at ^ *wanted) != 32 || (*at | 32u) - 'a' > 25u)) return 0;
    return 1;
}

/* Whether an identifier of a quirks list begins here: each line has one, after a space. */
static inline int jz_is_listed(const uint8_t *at, const uint8_t *end, jz_bytes list) {
    const uint8_t *line = list.bytes, *const last = line + list.length, *text, *next;
    for (; line < last; line = next + 1) {
        if (!(next = (const uint8_t *)memchr(line, '\n', (size_t)(last - line)))) next = last;
        text = (const uint8_t *)memchr(line, ' ', (size_t)(next - line));
        if (!text || jz_begins(at, end, text + 1, (size_t)(next - text - 1))) return 1;
    }
    return 0;
}

/* Whether a quirks list may matter to an input, for which else none need be read: where it begins, after white space and what is in <? >,
 * with a doctype in which an identifier of the list stands after a quote, or with what is no doctype, start tag, letter or digit. */
static inline int jz_quirks_matter(const uint8_t *input, size_t length, jz_bytes list) {
    const uint8_t *at = input, *end = input + length;
    while (at < end && (jz_begins(at, end, "<?", 2) || (*at && strchr("\t\n\f\r ", *at)))) {
        if (*at == '<' && !(at = (const uint8_t *)memchr(at, '>', (size_t)(end - at)))) return 0;
        at++;
    }
    if (!jz_begins(at, end, "<!doctype", 9)) return at < end && !jz_is_letter_or_digit(at[*at == '<' && end - at > 1]);
    for (; at < end && *at != '>'; at++)
        if ((*at == '"' || *at == '\'') && jz_is_listed(at + 1, end, list)) return 1;
    return 0;
}

/* A tree and its parse errors in the caller's memory, made by jz_parse, jz_parse_places or jz_make_page and freed by jz_free. It lends its
 * words and errors until it is freed; several threads may read it at once. Its fields are its own business, but for `root` and the last two. */
typedef struct jz_node {
    uint32_t kind, parent, first_child, next;
    size_t words; /* where its words begin */
} jz_node;

typedef struct jz_doc {
    jz_node *nodes; /* by number */
    size_t length; /* of the input */
    uint32_t count;
    uint32_t root; /* the document, or a fragment's root, an element without name and attributes */
    uint8_t *words;
    size_t words_length;
    uint64_t *places; /* by number; null where they were not asked for */
    jz_error *errors; /* in the order of the input */
    size_t error_count;
} jz_doc;

/* Whether all that must not be null is not. */
static inline int jz_is_whole(const uint8_t *input, const jz_options *options) {
    return input && options && options->context.bytes && options->entities.bytes && options->quirks.bytes;
}

static inline uint32_t jz_fault(jz_answer *answer, uint32_t status) {
    memset(answer, 0, sizeof *answer);
    return answer->status = status;
}

static inline uint32_t jz_page_fault(jz_page_answer *answer, uint32_t status) {
    memset(answer, 0, sizeof *answer);
    return answer->status = status;
}

/* Asks for the room of a text: the status is JZ_OK, and answer->length the room, or it says why there is no such text. It takes a parse,
 * so jz_make_text, which first tries a room, is the shorter way to a text. */
static inline uint32_t jz_text_room(uint32_t task, const uint8_t *input, size_t length, const jz_options *options, jz_answer *answer) {
    uint8_t none;
    if (!answer) return JZ_NULL;
    if (!jz_is_whole(input, options)) return jz_fault(answer, JZ_NULL);
    if (jz_text(task, input, length, options, &none, 0, answer) == JZ_TOO_SHORT) answer->status = JZ_OK;
    return answer->status;
}

/* Asks for the rooms of a tree, in the same way: answer->nodes rows, and answer->length bytes of words. */
static inline uint32_t jz_tree_rooms(const uint8_t *input, size_t length, const jz_options *options, jz_answer *answer) {
    jz_row none;
    uint8_t no_words;
    if (!answer) return JZ_NULL;
    if (!jz_is_whole(input, options)) return jz_fault(answer, JZ_NULL);
    if (jz_tree(input, length, options, &none, 0, &no_words, 0, answer) == JZ_TOO_SHORT) answer->status = JZ_OK;
    return answer->status;
}

/* Has glibc give back to the system what was freed, where an input of this length may have taken much: once a block of up to 32 MB was
 * freed, it takes such blocks from its heap, and keeps there what is freed. */
static inline void jz_give_back(size_t length) {
#ifdef __GLIBC__
    if (length >= 1048576) malloc_trim(0);
#else
    (void)length;
#endif
}

/* Asks for large pages under a large room, of which the system hands out as much as is written to: by small ones that takes a seventh of a
 * large parse. */
static inline void jz_by_large_pages(void *room, size_t length) {
#ifdef MADV_HUGEPAGE
    size_t before = (size_t)-(uintptr_t)room % 65536; /* where a page begins, of whatever size */
    if (room && length >= 4194304) madvise((uint8_t *)room + before, length - before, MADV_HUGEPAGE);
#else
    (void)room, (void)length;
#endif
}

/* The same block, with no more room than these bytes need. */
static inline void *jz_cut(void *block, size_t length) {
    void *cut = realloc(block, length + 1);
    return cut ? cut : block;
}

/* The text of a task in a block of this room. */
static inline uint32_t jz_text_in(size_t room, uint32_t task, const uint8_t *input, size_t length, const jz_options *options,
                                  uint8_t **text, jz_answer *answer) {
    uint8_t *block = (uint8_t *)malloc(room + 1);
    uint32_t status = block ? jz_text(task, input, length, options, block, room, answer) : jz_fault(answer, JZ_MEMORY);
    if (status == JZ_OK) *text = (uint8_t *)jz_cut(block, (size_t)answer->length);
    else free(block);
    jz_give_back(length);
    return status;
}

/* The text of a task in memory of its own, which the caller frees with free(); *text is null where the status is not JZ_OK. One parse
 * makes it if six bytes for each of the input, or 24 of errors, are room enough, as for nearly every page, and malloc gives so many
 * (those that are not written take no memory); if not, further parses ask for the room that it needs, and make it there. */
static inline uint32_t jz_make_text(uint32_t task, const uint8_t *input, size_t length, const jz_options *options, uint8_t **text,
                                    jz_answer *answer) {
    uint32_t status;
    if (text) *text = NULL;
    if (!answer) return JZ_NULL;
    if (!text || !jz_is_whole(input, options)) return jz_fault(answer, JZ_NULL);
    status = jz_text_in(1024 + length * (task == JZ_ERRORS ? 24 : 6), task, input, length, options, text, answer);
    if (status == JZ_MEMORY) status = jz_text_in(0, task, input, length, options, text, answer);
    if (status == JZ_TOO_SHORT) status = jz_text_in((size_t)answer->length, task, input, length, options, text, answer);
    return status;
}

/* The flat form of a table of character references, in memory of its own, which the caller frees with free(); null where the status is
 * not JZ_OK. In the options it stands for the JSON that it was made of, and is read in a sixtieth of the time. */
static inline uint32_t jz_make_table(const uint8_t *entities, size_t length, uint8_t **table, jz_answer *answer) {
    size_t room = 256 + length;
    uint32_t status;
    if (table) *table = NULL;
    if (!answer) return JZ_NULL;
    if (!table || !entities) return jz_fault(answer, JZ_NULL);
    do {
        uint8_t *block = (uint8_t *)malloc(room);
        status = block ? jz_table(entities, length, block, room, answer) : jz_fault(answer, JZ_MEMORY);
        if (status == JZ_OK) *table = (uint8_t *)jz_cut(block, (size_t)answer->length);
        else free(block);
        room = (size_t)answer->length;
    } while (status == JZ_TOO_SHORT);
    return status;
}

/* Gives back what a tree holds. A tree of zeros holds nothing, and a freed one is of zeros, so that it can be freed again. */
static inline void jz_free(jz_doc *doc) {
    size_t length;
    if (!doc) return;
    length = doc->length;
    free(doc->nodes);
    free(doc->words);
    free(doc->places);
    free(doc->errors);
    memset(doc, 0, sizeof *doc);
    jz_give_back(length);
}

/* Puts rows into their places by number, and finds their words. Numbers mostly come in order, so that a node is written once. */
static inline uint32_t jz_index(jz_doc *doc, const jz_row *rows, size_t count) {
    const uint8_t *at = doc->words, *end = doc->words + doc->words_length;
    uint32_t made = doc->root + 1; /* what the nodes below this number hold is written */
    size_t i;
    doc->count = made;
    for (i = 0; i < count; i++)
        if (rows[i].number >= doc->count) doc->count = rows[i].number + 1;
    if (!(doc->nodes = (jz_node *)malloc(doc->count * sizeof *doc->nodes))) return JZ_MEMORY;
    jz_by_large_pages(doc->nodes, doc->count * sizeof *doc->nodes);
    memset(doc->nodes, 0xFF, made * sizeof *doc->nodes); /* JZ_NONE in each link */
    doc->nodes[doc->root].words = doc->words_length;
    doc->nodes[doc->root].kind = doc->root == 0 ? JZ_DOCUMENT : JZ_ELEMENT;
    if (count) doc->nodes[doc->root].first_child = rows[0].number;
    for (i = 0; i < count; i++) {
        const jz_row *row = &rows[i];
        jz_node *node = &doc->nodes[row->number];
        if (row->number > made) memset(&doc->nodes[made], 0xFF, (row->number - made) * sizeof *node);
        if (row->number >= made) made = row->number + 1;
        node->kind = row->kind;
        node->parent = row->parent;
        node->first_child = row->first_child;
        node->next = row->next;
        node->words = (size_t)(at - doc->words);
        at = (const uint8_t *)memchr(at, 0xFE, (size_t)(end - at)) + 1;
    }
    return JZ_OK;
}

/* No place in an input. */
#define JZ_NOWHERE ((uint64_t)-1)

/* Finds the place of each node: where its own token begins, or the place of the element that it was made again of, which has a lower number. */
static inline uint32_t jz_find_places(jz_doc *doc, const jz_row *rows, const jz_origin *origins, size_t count) {
    uint32_t number, *again_of = (uint32_t *)malloc(doc->count * sizeof *again_of);
    size_t i;
    doc->places = (uint64_t *)malloc(doc->count * sizeof *doc->places);
    if (again_of && doc->places) {
        memset(again_of, 0xFF, doc->count * sizeof *again_of); /* JZ_NONE and JZ_NOWHERE */
        memset(doc->places, 0xFF, doc->count * sizeof *doc->places);
        for (i = 0; i < count; i++) {
            again_of[rows[i].number] = origins[i].again_of;
            if (origins[i].in_source) doc->places[rows[i].number] = origins[i].at;
        }
        for (number = 0; number < doc->count; number++)
            if (again_of[number] < number) doc->places[number] = doc->places[again_of[number]];
    }
    number = again_of && doc->places ? JZ_OK : JZ_MEMORY;
    free(again_of);
    return number;
}

/* How many rows, and how many bytes of words and of text, there is room for. */
typedef struct jz_rooms {
    size_t rows, words, errors, text, origins;
} jz_rooms;

/* A page made by way of these rooms. Those that are not kept are one block: by the size of what is freed glibc tells how much it keeps for the
 * next parse, and where it keeps less than a parse takes, each is handed its memory anew. */
static inline uint32_t jz_page_in(jz_rooms rooms, uint32_t wants, const uint8_t *input, size_t length, const jz_options *options, jz_doc *doc,
                                  uint8_t **text, jz_page_answer *answer) {
    uint32_t status = JZ_MEMORY;
    size_t row_bytes = rooms.rows * sizeof(jz_row), origin_bytes = rooms.origins * sizeof(jz_origin);
    jz_error *errors = (jz_error *)malloc(rooms.errors * sizeof *errors + origin_bytes + row_bytes + 1);
    jz_origin *origins = errors ? (jz_origin *)(errors + rooms.errors) : NULL;
    jz_row *rows = errors ? (jz_row *)(origins + rooms.origins) : NULL;
    uint8_t *html = (uint8_t *)malloc(rooms.text + 1);
    doc->length = length;
    doc->root = options->context.length ? 1 : 0;
    doc->words = (uint8_t *)malloc(rooms.words + 1);
    jz_by_large_pages(doc->words, rooms.words);
    jz_by_large_pages(origins, origin_bytes + row_bytes);
    if (errors && html && doc->words)
        status = jz_page(wants, input, length, options, rows, rooms.rows, doc->words, rooms.words, errors, rooms.errors, html, rooms.text,
                         origins, rooms.origins, answer);
    if (status == JZ_OK) {
        doc->words_length = (size_t)answer->words;
        doc->words = (uint8_t *)jz_cut(doc->words, doc->words_length);
        doc->error_count = (size_t)answer->errors;
        doc->errors = (jz_error *)malloc(doc->error_count * sizeof *errors + 1);
        jz_give_back(length);
        if (doc->errors) memcpy(doc->errors, errors, doc->error_count * sizeof *errors);
        else status = JZ_MEMORY;
    }
    if (status == JZ_OK) status = jz_index(doc, rows, (size_t)answer->nodes);
    if (status == JZ_OK && wants & JZ_WANT_ORIGINS) status = jz_find_places(doc, rows, origins, (size_t)answer->nodes);
    if (status == JZ_OK && text) *text = (uint8_t *)jz_cut(html, (size_t)answer->text);
    else free(html);
    free(errors);
    if (status != JZ_OK) jz_free(doc);
    return status == JZ_MEMORY ? jz_page_fault(answer, status) : status;
}

/* What jz_make_page makes, with what is wanted, JZ_WANT_TEXT where `text` is not null. */
static inline uint32_t jz_make_parts(uint32_t wants, const uint8_t *input, size_t length, const jz_options *options, jz_doc *doc,
                                     uint8_t **text, jz_page_answer *answer) {
    jz_rooms rooms = { 64 + length / 4, 256 + length * 2, 64 + length / 4, 0, 0 };
    uint32_t status;
    if (doc) memset(doc, 0, sizeof *doc);
    if (text) *text = NULL;
    if (!answer) return JZ_NULL;
    if (!doc || !jz_is_whole(input, options)) return jz_page_fault(answer, JZ_NULL);
    if (text) rooms.text = 1024 + length * 6;
    if (wants & JZ_WANT_ORIGINS) rooms.origins = rooms.rows;
    status = jz_page_in(rooms, wants, input, length, options, doc, text, answer);
    if (status == JZ_MEMORY) {
        memset(&rooms, 0, sizeof rooms);
        status = jz_page_in(rooms, wants, input, length, options, doc, text, answer);
    }
    if (status == JZ_TOO_SHORT) {
        rooms.rows = (size_t)answer->nodes;
        rooms.words = (size_t)answer->words;
        rooms.errors = (size_t)answer->errors;
        rooms.text = (size_t)answer->text;
        rooms.origins = wants & JZ_WANT_ORIGINS ? rooms.rows : 0;
        status = jz_page_in(rooms, wants, input, length, options, doc, text, answer);
    }
    return status;
}

/* Parses an input into a tree with its parse errors, and of the same parse makes the text of JZ_WRITE where `text` is not null, for the
 * caller to free with free(). Where the status is not JZ_OK the tree is of zeros and *text is null. As with jz_make_text one parse is
 * enough for nearly every page, but not where there are very many nodes or errors for the length, as in "<p><p><p>". */
static inline uint32_t jz_make_page(const uint8_t *input, size_t length, const jz_options *options, jz_doc *doc, uint8_t **text,
                                    jz_page_answer *answer) {
    return jz_make_parts(JZ_WANT_ERRORS | (text ? JZ_WANT_TEXT : 0), input, length, options, doc, text, answer);
}

/* What jz_parse makes, with what is wanted. */
static inline uint32_t jz_parse_for(uint32_t wants, const uint8_t *input, size_t length, const jz_options *options, jz_doc *doc,
                                    jz_answer *answer) {
    jz_page_answer page;
    uint32_t status = jz_make_parts(wants, input, length, options, doc, NULL, answer ? &page : NULL);
    if (!answer) return status;
    answer->status = page.status;
    answer->detail = page.detail;
    answer->at = page.at;
    answer->length = page.words;
    answer->nodes = page.nodes;
    return status;
}

/* Parses an input into a tree with its parse errors, and no more; in the answer `length` is that of the words. */
static inline uint32_t jz_parse(const uint8_t *input, size_t length, const jz_options *options, jz_doc *doc, jz_answer *answer) {
    return jz_parse_for(JZ_WANT_ERRORS, input, length, options, doc, answer);
}

/* The same, with the places of the nodes (jz_place), which make the parse dearer. */
static inline uint32_t jz_parse_places(const uint8_t *input, size_t length, const jz_options *options, jz_doc *doc, jz_answer *answer) {
    return jz_parse_for(JZ_WANT_ERRORS | JZ_WANT_ORIGINS, input, length, options, doc, answer);
}

/* The most bytes that an input has. */
#define JZ_MOST ((size_t)1073741824)

/* An input that comes in pieces, and is gathered, since the library reads it whole: before its end there are no nodes, and no refusal but
 * for its length.
 *
 *     jz_begin(&feeder);
 *     while ((count = read(socket, piece, sizeof piece)) > 0)
 *         if (jz_feed(&feeder, piece, (size_t)count) != JZ_OK) break;
 *     status = jz_end(&feeder, &options, &doc, &answer);
 *
 * What is gathered are `length` bytes at `bytes`, null where there are none, and may be handed to the other calls. */
typedef struct jz_feeder {
    uint8_t *bytes;
    size_t length;
    size_t room;
    uint32_t status; /* JZ_OK, or why a piece was not taken */
} jz_feeder;

/* Begins a feeder, which holds nothing yet. */
static inline void jz_begin(jz_feeder *feeder) {
    if (feeder) memset(feeder, 0, sizeof *feeder);
}

/* Gives back what a feeder holds, for an input that is given up. The feeder is then as one that was just begun. */
static inline void jz_drop(jz_feeder *feeder) {
    size_t length;
    if (!feeder) return;
    length = feeder->length;
    free(feeder->bytes);
    jz_begin(feeder);
    jz_give_back(length);
}

/* Has a feeder take so many more bytes. */
static inline uint32_t jz_make_room(jz_feeder *feeder, size_t length) {
    size_t room;
    uint8_t *more;
    if (length > JZ_MOST - feeder->length) return JZ_TOO_LARGE;
    if (length <= feeder->room - feeder->length) return JZ_OK;
    room = 2 * (feeder->length + length) + 8192;
    if (room > JZ_MOST) room = JZ_MOST;
    if (!(more = (uint8_t *)realloc(feeder->bytes, room))) return JZ_MEMORY;
    feeder->bytes = more;
    feeder->room = room;
    return JZ_OK;
}

/* Takes a piece of an input, cut anywhere. Where memory runs out, or the input gets longer than JZ_MOST (JZ_TOO_LARGE, whatever is in it),
 * the feeder gives back what it holds, and that is the status of each further piece, and of the end. */
static inline uint32_t jz_feed(jz_feeder *feeder, const uint8_t *piece, size_t length) {
    uint32_t status;
    if (!feeder || (!piece && length)) return JZ_NULL;
    status = feeder->status == JZ_OK ? jz_make_room(feeder, length) : feeder->status;
    if (status != JZ_OK) {
        jz_drop(feeder);
        return feeder->status = status;
    }
    if (length) memcpy(feeder->bytes + feeder->length, piece, length);
    feeder->length += length;
    return JZ_OK;
}

/* Ends an input: parses what was gathered, as jz_parse does, and gives it back. Where a piece was not taken, there is no tree. */
static inline uint32_t jz_end(jz_feeder *feeder, const jz_options *options, jz_doc *doc, jz_answer *answer) {
    static const uint8_t none[1] = { 0 };
    uint32_t status = feeder ? feeder->status : (uint32_t)JZ_NULL;
    if (status == JZ_OK) {
        status = jz_parse(feeder->bytes ? feeder->bytes : none, feeder->length, options, doc, answer);
    } else {
        if (doc) memset(doc, 0, sizeof *doc);
        status = answer ? jz_fault(answer, status) : (uint32_t)JZ_NULL;
        if (status == JZ_TOO_LARGE) answer->at = JZ_MOST;
    }
    jz_drop(feeder);
    return status;
}

/* The kind of a node, and the nodes around it; JZ_NONE where there is none, or no such node. */
static inline uint32_t jz_kind(const jz_doc *doc, uint32_t node) { return node < doc->count ? doc->nodes[node].kind : JZ_NONE; }
static inline uint32_t jz_parent(const jz_doc *doc, uint32_t node) { return node < doc->count ? doc->nodes[node].parent : JZ_NONE; }
static inline uint32_t jz_first_child(const jz_doc *doc, uint32_t node) { return node < doc->count ? doc->nodes[node].first_child : JZ_NONE; }
static inline uint32_t jz_next(const jz_doc *doc, uint32_t node) { return node < doc->count ? doc->nodes[node].next : JZ_NONE; }

/* The byte of the input from which a node comes: where its start tag, its comment, its doctype or its first character begins; of an element
 * that was made again, as where formatting elements are misnested, the start tag of the first of these. JZ_NOWHERE of what the parser added,
 * of the root, and of each node where the tree is not of jz_parse_places. */
static inline uint64_t jz_place(const jz_doc *doc, uint32_t node) {
    return doc->places && node < doc->count ? doc->places[node] : JZ_NOWHERE;
}

/* The node after this one in tree order, of those inside `top`; JZ_NONE after the last. */
static inline uint32_t jz_after(const jz_doc *doc, uint32_t node, uint32_t top) {
    uint32_t child = jz_first_child(doc, node);
    if (child != JZ_NONE) return child;
    while (node != top && node != JZ_NONE) {
        if (jz_next(doc, node) != JZ_NONE) return jz_next(doc, node);
        node = jz_parent(doc, node);
    }
    return JZ_NONE;
}

static inline jz_bytes jz_lent(const uint8_t *bytes, size_t length) {
    jz_bytes lent;
    lent.bytes = bytes;
    lent.length = length;
    return lent;
}

/* What is left of a node's words, or of an element's attributes, while they are gone through: to the byte 0xFE. */
typedef struct jz_words {
    const uint8_t *at;
    const uint8_t *end; /* that of all words */
} jz_words;

static inline jz_words jz_words_of(const jz_doc *doc, uint32_t node) {
    jz_words left = { NULL, NULL };
    if (jz_kind(doc, node) == JZ_NONE) return left;
    left.at = doc->words + doc->nodes[node].words;
    left.end = doc->words + doc->words_length;
    return left;
}

/* The next word; its bytes are null where none is left. */
static inline jz_bytes jz_next_word(jz_words *left) {
    const uint8_t *start = left->at, *end;
    if (start == left->end || *start == 0xFE) return jz_lent(NULL, 0);
    end = (const uint8_t *)memchr(start, 0xFF, (size_t)(left->end - start));
    left->at = end + 1;
    return jz_lent(start, (size_t)(end - start));
}

/* A word of a node, by its place from 0; its bytes are null where there is none. */
static inline jz_bytes jz_word(const jz_doc *doc, uint32_t node, size_t place) {
    jz_words left = jz_words_of(doc, node);
    while (place > 0 && jz_next_word(&left).bytes) place--;
    return jz_next_word(&left);
}

/* The name of an element or a doctype. */
static inline jz_bytes jz_name(const jz_doc *doc, uint32_t node) {
    return jz_kind(doc, node) == JZ_ELEMENT || jz_kind(doc, node) == JZ_DOCTYPE ? jz_word(doc, node, 0) : jz_lent(NULL, 0);
}

/* The characters of a text, or the data of a comment. */
static inline jz_bytes jz_data(const jz_doc *doc, uint32_t node) {
    return jz_kind(doc, node) == JZ_TEXT_NODE || jz_kind(doc, node) == JZ_COMMENT ? jz_word(doc, node, 0) : jz_lent(NULL, 0);
}

static inline int jz_is(jz_bytes bytes, const char *text) {
    return bytes.bytes && bytes.length == strlen(text) && memcmp(bytes.bytes, text, bytes.length) == 0;
}

/* The attributes of an element, in their order:
 *
 *     jz_words left = jz_attributes(&doc, node);
 *     jz_bytes name, value;
 *     while (jz_next_attribute(&left, &name, &value)) ..
 */
static inline jz_words jz_attributes(const jz_doc *doc, uint32_t node) {
    jz_words left = jz_words_of(doc, jz_kind(doc, node) == JZ_ELEMENT ? node : JZ_NONE);
    jz_next_word(&left); /* the element's name */
    return left;
}

/* The next attribute. Where none is left it returns 0, and the bytes of both are null. */
static inline int jz_next_attribute(jz_words *left, jz_bytes *name, jz_bytes *value) {
    *name = jz_next_word(left);
    *value = jz_next_word(left);
    return name->bytes != NULL;
}

/* The value of an element's attribute of this name; its bytes are null where there is none. It goes through the attributes before it,
 * and so do the next two, which want a place from 0. */
static inline jz_bytes jz_attribute(const jz_doc *doc, uint32_t node, const char *name) {
    jz_words left = jz_attributes(doc, node);
    jz_bytes found, value;
    while (jz_next_attribute(&left, &found, &value))
        if (jz_is(found, name)) break;
    return value;
}

static inline jz_bytes jz_attribute_name(const jz_doc *doc, uint32_t node, size_t place) {
    jz_words left = jz_attributes(doc, node);
    jz_bytes name, value;
    while (jz_next_attribute(&left, &name, &value) && place > 0) place--;
    return name;
}

static inline jz_bytes jz_attribute_value(const jz_doc *doc, uint32_t node, size_t place) {
    jz_words left = jz_attributes(doc, node);
    jz_bytes name, value;
    while (jz_next_attribute(&left, &name, &value) && place > 0) place--;
    return value;
}

#ifdef __cplusplus
}
#endif

#endif
