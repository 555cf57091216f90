/* What the library asks of its host, and its calls with numbers of 32 bits: all the C that the module has. No proof covers it. */
#include "ecma.h"
#include <stddef.h>
#include <stdint.h>

/* The memory: the stack and the constants, one text from `base()` on, and behind it, up to `top`, rooms and blocks. */

static uint64_t top;

extern unsigned char __heap_base;

static uint64_t aligned(uint64_t place) { return (place + 15) & ~(uint64_t)15; }

static uint64_t base(void) { return aligned((uint64_t)(uintptr_t)&__heap_base); }

enum { PAGE_BITS = 16, SPARE_PAGES = 8 };

/* Whether the memory grew by so many pages. A refused one is -1 of 32 bits here: binaryen makes the memory one of 32 bits, and widens
   what its instruction answers without a sign. */
static int grows(uint64_t pages) { return (uint32_t)__builtin_wasm_memory_grow(0, (size_t)pages) != UINT32_MAX; }

/* Whether the memory reaches to `end`, once it has grown where it has to: by half a megabyte, where there is so much. */
static int reaches(uint64_t end) {
    uint64_t has = (uint64_t)__builtin_wasm_memory_size(0) << PAGE_BITS;
    if (end > 0xffff0000u) return 0;
    if (end <= has) return 1;
    uint64_t pages = (end - has + 0xffff) >> PAGE_BITS;
    if (pages < SPARE_PAGES && has < 0xff000000u && grows(SPARE_PAGES)) return 1;
    return grows(pages);
}

/* The heap: blocks of 2^class bytes behind a header that holds the class. A freed block goes to the list of its class. */

struct block {
    struct block *next;
    uint64_t class;
};

enum { SMALLEST_CLASS = 4, CLASSES = 32 };

static struct block *freed[CLASSES];

static struct block *new_block(uint64_t class) {
    struct block *block = freed[class];
    if (block) {
        freed[class] = block->next;
        return block;
    }
    uint64_t end = top + sizeof(struct block) + ((uint64_t)1 << class);
    if (!reaches(end)) return 0;
    block = (struct block *)(uintptr_t)top;
    block->class = class;
    top = end;
    return block;
}

static void *allocate(uint64_t bytes) {
    uint64_t class = bytes <= 16 ? SMALLEST_CLASS : 64 - (uint64_t)__builtin_clzll(bytes - 1);
    struct block *block = class < CLASSES ? new_block(class) : 0;
    return block ? block + 1 : 0;
}

static void release(void *place) {
    struct block *block = (struct block *)place - 1;
    block->next = freed[block->class];
    freed[block->class] = block;
}

/* What the library asks for, by the names that it links against. Where `ok` is 0 the place is not looked at. */

struct allocated {
    uint64_t ok;
    void *place;
};

static struct allocated answer(void *place) {
    struct allocated it = {place != 0, place ? place : (void *)freed};
    return it;
}

struct allocated rattle_alloc(uint64_t bytes, uint64_t align) {
    (void)align;
    return answer(allocate(bytes));
}

void rattle_dealloc(void *place) { release(place); }

struct allocated rattle_realloc(void *place, uint64_t kept, uint64_t bytes, uint64_t align) {
    struct block *block = (struct block *)place - 1;
    (void)align;
    if (bytes <= (uint64_t)1 << block->class) return answer(place);
    void *other = allocate(bytes);
    if (other) {
        __builtin_memcpy(other, place, (size_t)kept);
        release(place);
    }
    return answer(other);
}

/* A product of 128 bits, which clang calls and its runtime library would have. */
__int128 __multi3(uint64_t a_low, uint64_t a_high, uint64_t b_low, uint64_t b_high) {
    uint64_t a0 = (uint32_t)a_low, a1 = a_low >> 32, b0 = (uint32_t)b_low, b1 = b_low >> 32;
    uint64_t low = a0 * b0, middle = a1 * b0 + (low >> 32), more = a0 * b1 + (uint32_t)middle;
    uint64_t high = a1 * b1 + (middle >> 32) + (more >> 32) + a_high * b_low + a_low * b_high;
    return (__int128)(((unsigned __int128)high << 64) | ((more << 32) | (uint32_t)low));
}

/* The calls of the package. uses/js/build exports each function that stands behind EXPORT. */

#define EXPORT(type, name) type name

static uint32_t number;

/* A place for a text of at most so many bytes, or 0. A text that is there stays. */
EXPORT(uint32_t, ecma_js_begin)(uint32_t bytes) { return reaches(base() + bytes + 16) ? (uint32_t)base() : 0; }

/* The text has so many bytes. All rooms and blocks are forgotten. */
EXPORT(void, ecma_js_text)(uint32_t bytes) {
    for (int class = 0; class < CLASSES; class++) freed[class] = 0;
    top = aligned(base() + bytes);
}

/* Room for so many bytes, until the next `ecma_js_text`, or 0. */
EXPORT(uint32_t, ecma_js_room)(uint32_t bytes) {
    uint64_t at = top, end = aligned(at + bytes + 1);
    if (!reaches(end)) return 0;
    top = end;
    return (uint32_t)at;
}

/* How many rows or bytes there are, by the call before. */
EXPORT(uint32_t, ecma_js_number)(void) { return number; }

static uint32_t status_of(struct ecma_answer answer) {
    number = (uint32_t)answer.count;
    return answer.status;
}

/* The parentheses around a name keep the header's wrapper away, which tests for null pointers. */
#define SLICE(type, at, length) (type *)(uintptr_t)(at), (length)
#define REQUEST uint32_t text, uint32_t length, uint32_t options, uint32_t slashes, uint32_t count
#define ASKED SLICE(const uint8_t, text, length), options, SLICE(const uint32_t, slashes, count)

EXPORT(uint32_t, ecma_js_count)(REQUEST) { return status_of((ecma_count)(ASKED)); }

EXPORT(uint32_t, ecma_js_tokens)(REQUEST, uint32_t out, uint32_t rows) {
    return status_of((ecma_tokens)(ASKED, SLICE(struct ecma_token, out, rows)));
}

EXPORT(uint32_t, ecma_js_comments)(REQUEST, uint32_t out, uint32_t rows) {
    return status_of((ecma_comments)(ASKED, SLICE(struct ecma_comment, out, rows)));
}

EXPORT(uint32_t, ecma_js_errors)(REQUEST, uint32_t out, uint32_t rows, uint32_t messages, uint32_t room) {
    return status_of((ecma_errors)(ASKED, SLICE(struct ecma_error, out, rows), SLICE(uint8_t, messages, room)));
}

EXPORT(uint32_t, ecma_js_canonical)(REQUEST, uint32_t out, uint32_t room) {
    return status_of((ecma_canonical)(ASKED, SLICE(uint8_t, out, room)));
}

/* The library takes the place of an answer beyond two registers and returns it, as x86-64 has it; wasm64 has no such result. */
extern struct ecma_module *imports_told(struct ecma_module *told, const uint8_t *, size_t, uint32_t, const uint32_t *, size_t, struct ecma_import *, size_t,
                                        struct ecma_export *, size_t) __asm__("ecma_imports");

/* How many rows there are, the status and the flags of the text are written to `module`. */
EXPORT(uint32_t, ecma_js_imports)(REQUEST, uint32_t imports, uint32_t import_rows, uint32_t exports, uint32_t export_rows, uint32_t module) {
    struct ecma_module *told = (struct ecma_module *)(uintptr_t)module;
    return imports_told(told, ASKED, SLICE(struct ecma_import, imports, import_rows), SLICE(struct ecma_export, exports, export_rows))->status;
}

/* Places in bytes become places in units of UTF-16. */

typedef uint64_t __attribute__((aligned(1), may_alias)) eight_bytes;

static uint64_t ascii_end(const uint8_t *text, uint64_t at, uint64_t size) {
    while (at + 8 <= size && !(*(const eight_bytes *)(text + at) & 0x8080808080808080u)) at += 8;
    while (at < size && text[at] < 0x80) at++;
    return at;
}

/* How many bytes there are in [from, to) beyond the units: a sequence of 4 bytes is 2 units, any other is one. */
static uint64_t surplus(const uint8_t *text, uint64_t from, uint64_t to) {
    uint64_t bytes = 0;
    for (; from < to; from++) bytes += (uint64_t)((text[from] & 0xc0) == 0x80) - (uint64_t)(text[from] >= 0xf0);
    return bytes;
}

/* A stretch of ASCII, [from, to), and the surplus of all that lies before it. */
struct stretch {
    uint64_t from, to, before;
};

static uint32_t unit_of(struct stretch *it, const uint8_t *text, uint64_t size, uint64_t place) {
    if (place < it->from) {
        it->before -= surplus(text, place, it->from);
        it->from = place;
        it->to = ascii_end(text, place, size);
    }
    while (place > it->to && it->to < size) {
        uint64_t end = it->to + 1;
        while (end < size && (text[end] & 0xc0) == 0x80) end++;
        it->before += surplus(text, it->to, end);
        it->from = end;
        it->to = ascii_end(text, end, size);
    }
    return (uint32_t)(place - it->before);
}

/* Of each of `rows` rows, `step` words apart, the first `columns` words from `at` on are places. It is quick where they ascend. */
EXPORT(void, ecma_js_units)(uint32_t text_at, uint32_t size, uint32_t at, uint32_t rows, uint32_t step, uint32_t columns) {
    const uint8_t *text = (const uint8_t *)(uintptr_t)text_at;
    uint32_t *row = (uint32_t *)(uintptr_t)at;
    struct stretch ascii = {0, ascii_end(text, 0, size), 0};
    for (; rows; rows--, row += step)
        for (uint32_t i = 0; i < columns; i++) row[i] = unit_of(&ascii, text, size, row[i]);
}
