/* The lexer for C: libecma_c.a. The caller owns all memory, and nothing is kept between calls. docs/C.md has the calls. */
#ifndef ECMA_H
#define ECMA_H
#include "ecma_kinds.h"
#include <stddef.h>
#include <stdint.h>

#ifdef __cplusplus
extern "C" {
#define ECMA_ASSERT(holds) static_assert(holds, #holds)
#else
#define ECMA_ASSERT(holds) _Static_assert(holds, #holds)
#endif

/* How a text is read: a sum of these. */
enum ecma_option {
    ECMA_TYPESCRIPT = 1,
    ECMA_MODULE = 2,
    ECMA_STRICT = 4,
    /* Whether a slash begins a regular expression is told by the lexer's own flag; no places are given then. */
    ECMA_SLASHES_BY_FLAG = 8,
    /* It is told by the tokens before it, which errs in fewer texts; no places are given then. */
    ECMA_SLASHES_BY_ROLE = 16,
    /* Of ecma_imports alone: a row for each require("x"). */
    ECMA_COMMONJS = 32
};

/* What a call came to. */
enum ecma_status {
    ECMA_DONE = 0,
    ECMA_NO_SLASH = 2,
    ECMA_NOT_UTF8 = 3,
    ECMA_NOT_CLEAN = 4,
    ECMA_OUT_OF_MEMORY = 5,
    ECMA_NO_ROOM = 6,
    ECMA_REFUSED = 7,
    ECMA_TOO_LONG = 8
};

/* Flags of tokens. */
enum ecma_token_flag {
    /* A line terminator, or nothing, stands before the token, or the token is template text that has one. */
    ECMA_LINE_BREAK_BEFORE = 1,
    /* The value of the token is not its spelling. */
    ECMA_RESPELLED = 2
};

/* Flags of comments. */
enum ecma_comment_flag {
    ECMA_BLOCK = 1,
    ECMA_TRAILING = 2
};

/* How a module is named. */
enum ecma_import_form {
    ECMA_IMPORT_STATIC = 0,
    /* export .. from */
    ECMA_IMPORT_REEXPORT = 1,
    /* A call of import. */
    ECMA_IMPORT_CALL = 2,
    /* import.meta, which names none. */
    ECMA_IMPORT_META = 3,
    /* import x = require("y") of TypeScript. */
    ECMA_IMPORT_EQUALS = 4,
    /* declare module "x" of TypeScript. */
    ECMA_IMPORT_AMBIENT = 5,
    /* require("x"), with ECMA_COMMONJS. */
    ECMA_IMPORT_REQUIRE = 6
};

/* How far a module is brought. */
enum ecma_import_phase {
    ECMA_PHASE_EVALUATION = 0,
    ECMA_PHASE_DEFER = 1,
    ECMA_PHASE_SOURCE = 2
};

/* Flags of imports and exports. What names a module, or the exported name, is a string, or its value is not its spelling. */
enum ecma_name_flag {
    /* Types alone. */
    ECMA_TYPE_ONLY = 1,
    /* Of an export: it has a local name. */
    ECMA_HAS_LOCAL = 2,
    ECMA_STRING = 4,
    ECMA_ESCAPED = 8,
    ECMA_LOCAL_STRING = 16,
    ECMA_LOCAL_ESCAPED = 32
};

/* Flags of a text. */
enum ecma_module_flag {
    /* It has nothing but imports, and exports that declare nothing. */
    ECMA_FACADE = 1,
    /* It has an import or export, or import.meta. */
    ECMA_MODULE_SYNTAX = 2
};

/* Where an error was found. */
enum ecma_error_source {
    /* A token is one. */
    ECMA_ERROR_TOKEN = 0,
    ECMA_ERROR_RECORDED = 1,
    /* It waits until the code is known to be a module. */
    ECMA_ERROR_WAITING = 2
};

/* A token: where it begins and ends, in bytes from the text's start, its kind (ecma_kinds.h), and its flags. */
struct ecma_token {
    uint32_t lo;
    uint32_t hi;
    uint16_t kind;
    uint16_t flags;
};

/* A comment: where the token begins that it leads, or ends that it trails; where it begins and ends; where what it says begins
   and ends; and its flags. */
struct ecma_comment {
    uint32_t pos;
    uint32_t lo;
    uint32_t hi;
    uint32_t text_lo;
    uint32_t text_hi;
    uint32_t flags;
};

/* An error: where it begins and ends, where it was found, and where its message begins and ends among all messages, joined. */
struct ecma_error {
    uint32_t lo;
    uint32_t hi;
    uint32_t source;
    size_t message_lo;
    size_t message_hi;
};

/* An import: the string with its quotes that names the module (one that is not closed has the first alone), else the first
   argument of a call, else the statement; the statement; the left parenthesis of a call, else 0; the braces behind `with` or
   `assert`, or the second argument of a call, else 0 and 0; how it names the module and how far that is brought; its flags; and
   which rows of exports are its own, so that their local names are names of the other module: how many come before them, and
   how many they are. */
struct ecma_import {
    uint32_t lo;
    uint32_t hi;
    uint32_t statement_lo;
    uint32_t statement_hi;
    uint32_t paren;
    uint32_t attributes_lo;
    uint32_t attributes_hi;
    uint8_t form;
    uint8_t phase;
    uint16_t flags;
    size_t first_export;
    size_t exports;
};

/* An exported name, its local name, else 0 and 0, and its flags. */
struct ecma_export {
    uint32_t lo;
    uint32_t hi;
    uint32_t local_lo;
    uint32_t local_hi;
    uint32_t flags;
};

/* How many rows of imports and of exports there are, also where there was no room for all of them, the status, and flags of
   the text. */
struct ecma_module {
    size_t imports;
    size_t exports;
    uint32_t status;
    uint32_t flags;
};

/* How many rows there are, also where there was no room for all of them, and the status. */
struct ecma_answer {
    size_t count;
    uint32_t status;
};

ECMA_ASSERT(sizeof(struct ecma_token) == 12);
ECMA_ASSERT(sizeof(struct ecma_comment) == 24);
ECMA_ASSERT(sizeof(struct ecma_error) == 32);
ECMA_ASSERT(sizeof(struct ecma_answer) == 16);
ECMA_ASSERT(sizeof(struct ecma_import) == 48);
ECMA_ASSERT(sizeof(struct ecma_export) == 20);
ECMA_ASSERT(sizeof(struct ecma_module) == 24);

/* `text` has text_len bytes; `slashes` has slashes_len places, each behind the one before it, of slashes that begin regular
   expressions. A null pointer is one to nothing, whatever its length says. */

struct ecma_answer ecma_count(const uint8_t *text, size_t text_len, uint32_t options, const uint32_t *slashes,
                              size_t slashes_len);

struct ecma_answer ecma_tokens(const uint8_t *text, size_t text_len, uint32_t options, const uint32_t *slashes,
                               size_t slashes_len, struct ecma_token *out, size_t out_len);

struct ecma_answer ecma_comments(const uint8_t *text, size_t text_len, uint32_t options, const uint32_t *slashes,
                                 size_t slashes_len, struct ecma_comment *out, size_t out_len);

struct ecma_answer ecma_errors(const uint8_t *text, size_t text_len, uint32_t options, const uint32_t *slashes,
                               size_t slashes_len, struct ecma_error *out, size_t out_len, uint8_t *messages,
                               size_t messages_len);

struct ecma_answer ecma_canonical(const uint8_t *text, size_t text_len, uint32_t options, const uint32_t *slashes,
                                  size_t slashes_len, uint8_t *out, size_t out_len);

struct ecma_module ecma_imports(const uint8_t *text, size_t text_len, uint32_t options, const uint32_t *slashes,
                                size_t slashes_len, struct ecma_import *imports, size_t imports_len,
                                struct ecma_export *exports, size_t exports_len);

/* The library's functions take no null pointers; by the names of these they do, as pointers to nothing. */

static const uint8_t ecma_no_text[1] = {0};
static const uint32_t ecma_no_slash = 0;

/* A pointer and its length; of a null pointer, one to nothing. */
#define ECMA_OR_NOTHING(pointer, nothing) (pointer) ? (pointer) : (nothing), (pointer) ? pointer##_len : 0

static inline struct ecma_answer ecma_count_or_nothing(const uint8_t *text, size_t text_len, uint32_t options,
                                                       const uint32_t *slashes, size_t slashes_len) {
    return ecma_count(ECMA_OR_NOTHING(text, ecma_no_text), options, ECMA_OR_NOTHING(slashes, &ecma_no_slash));
}
#define ecma_count ecma_count_or_nothing

/* A call that has one room. */
#define ECMA_ROOM_OR_NOTHING(call, row)                                                                                \
    static inline struct ecma_answer call##_or_nothing(const uint8_t *text, size_t text_len, uint32_t options,         \
                                                       const uint32_t *slashes, size_t slashes_len, row *out,          \
                                                       size_t out_len) {                                               \
        row no_out;                                                                                                    \
        return call(ECMA_OR_NOTHING(text, ecma_no_text), options, ECMA_OR_NOTHING(slashes, &ecma_no_slash),            \
                    ECMA_OR_NOTHING(out, &no_out));                                                                    \
    }

ECMA_ROOM_OR_NOTHING(ecma_tokens, struct ecma_token)
#define ecma_tokens ecma_tokens_or_nothing

ECMA_ROOM_OR_NOTHING(ecma_comments, struct ecma_comment)
#define ecma_comments ecma_comments_or_nothing

ECMA_ROOM_OR_NOTHING(ecma_canonical, uint8_t)
#define ecma_canonical ecma_canonical_or_nothing

static inline struct ecma_answer ecma_errors_or_nothing(const uint8_t *text, size_t text_len, uint32_t options,
                                                        const uint32_t *slashes, size_t slashes_len,
                                                        struct ecma_error *out, size_t out_len, uint8_t *messages,
                                                        size_t messages_len) {
    struct ecma_error no_out;
    uint8_t no_messages;
    return ecma_errors(ECMA_OR_NOTHING(text, ecma_no_text), options, ECMA_OR_NOTHING(slashes, &ecma_no_slash),
                       ECMA_OR_NOTHING(out, &no_out), ECMA_OR_NOTHING(messages, &no_messages));
}
#define ecma_errors ecma_errors_or_nothing

static inline struct ecma_module ecma_imports_or_nothing(const uint8_t *text, size_t text_len, uint32_t options,
                                                         const uint32_t *slashes, size_t slashes_len,
                                                         struct ecma_import *imports, size_t imports_len,
                                                         struct ecma_export *exports, size_t exports_len) {
    struct ecma_import no_imports;
    struct ecma_export no_exports;
    return ecma_imports(ECMA_OR_NOTHING(text, ecma_no_text), options, ECMA_OR_NOTHING(slashes, &ecma_no_slash),
                        ECMA_OR_NOTHING(imports, &no_imports), ECMA_OR_NOTHING(exports, &no_exports));
}
#define ecma_imports ecma_imports_or_nothing

#undef ECMA_ROOM_OR_NOTHING
#undef ECMA_OR_NOTHING

#ifdef __cplusplus
}
#endif
#endif
