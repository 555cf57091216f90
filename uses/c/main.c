/* Tells of the tokens, the comments, the errors, the imports and exports or the canonical text of a file:
   tokens|comments|errors|imports|canonical FILE OPTIONS [PLACE..]. A line has the numbers of a row, that of an error its message
   too; the last line has the status and the count. It asks for the number of rows first, and gives room for as many. */
#include "ecma.h"
#include <stdio.h>
#include <stdlib.h>
#include <string.h>

static uint8_t *read_file(const char *path, size_t *len) {
    FILE *file = fopen(path, "rb");
    if (!file || fseek(file, 0, SEEK_END) != 0) {
        perror(path);
        exit(1);
    }
    long size = ftell(file);
    rewind(file);
    uint8_t *bytes = (uint8_t *)malloc((size_t)size + 1);
    if (!bytes) {
        exit(1);
    }
    *len = fread(bytes, 1, (size_t)size, file);
    fclose(file);
    return bytes;
}

static struct ecma_answer tell_tokens(const uint8_t *text, size_t len, uint32_t options, const uint32_t *slashes,
                                      size_t slashes_len) {
    struct ecma_answer counted = ecma_count(text, len, options, slashes, slashes_len);
    struct ecma_token *rows = (struct ecma_token *)calloc(counted.count + 1, sizeof *rows);
    struct ecma_answer told = ecma_tokens(text, len, options, slashes, slashes_len, rows, counted.count);
    for (size_t i = 0; i < told.count; i++) {
        printf("%u %u %u %u\n", (unsigned)rows[i].lo, (unsigned)rows[i].hi, (unsigned)rows[i].kind, (unsigned)rows[i].flags);
    }
    free(rows);
    return told;
}

static struct ecma_answer tell_comments(const uint8_t *text, size_t len, uint32_t options, const uint32_t *slashes,
                                        size_t slashes_len) {
    struct ecma_answer counted = ecma_comments(text, len, options, slashes, slashes_len, NULL, 0);
    struct ecma_comment *rows = (struct ecma_comment *)calloc(counted.count + 1, sizeof *rows);
    struct ecma_answer told = ecma_comments(text, len, options, slashes, slashes_len, rows, counted.count);
    for (size_t i = 0; i < told.count; i++) {
        printf("%u %u %u %u %u %u\n", (unsigned)rows[i].pos, (unsigned)rows[i].lo, (unsigned)rows[i].hi,
               (unsigned)rows[i].text_lo, (unsigned)rows[i].text_hi, (unsigned)rows[i].flags);
    }
    free(rows);
    return told;
}

/* All rows together say how many bytes the messages have, so that room for these is given last. */
static struct ecma_answer tell_errors(const uint8_t *text, size_t len, uint32_t options, const uint32_t *slashes,
                                      size_t slashes_len) {
    struct ecma_answer counted = ecma_errors(text, len, options, slashes, slashes_len, NULL, 0, NULL, 0);
    size_t count = counted.count;
    struct ecma_error *rows = (struct ecma_error *)calloc(count + 1, sizeof *rows);
    ecma_errors(text, len, options, slashes, slashes_len, rows, count, NULL, 0);
    size_t messages_len = count > 0 ? rows[count - 1].message_hi : 0;
    uint8_t *messages = (uint8_t *)calloc(messages_len + 1, 1);
    struct ecma_answer told = ecma_errors(text, len, options, slashes, slashes_len, rows, count, messages, messages_len);
    for (size_t i = 0; i < count; i++) {
        const struct ecma_error *row = &rows[i];
        printf("%u %u %u ", (unsigned)row->lo, (unsigned)row->hi, (unsigned)row->source);
        fwrite(messages + row->message_lo, 1, row->message_hi - row->message_lo, stdout);
        putchar('\n');
    }
    free(messages);
    free(rows);
    return told;
}

/* A line of an import begins with `import`, of an export with `export`, of the text as a whole with `module`. */
static struct ecma_answer tell_imports(const uint8_t *text, size_t len, uint32_t options, const uint32_t *slashes,
                                       size_t slashes_len) {
    struct ecma_module counted = ecma_imports(text, len, options, slashes, slashes_len, NULL, 0, NULL, 0);
    struct ecma_import *imports = (struct ecma_import *)calloc(counted.imports + 1, sizeof *imports);
    struct ecma_export *exports = (struct ecma_export *)calloc(counted.exports + 1, sizeof *exports);
    struct ecma_module told =
        ecma_imports(text, len, options, slashes, slashes_len, imports, counted.imports, exports, counted.exports);
    for (size_t i = 0; i < told.imports; i++) {
        const struct ecma_import *row = &imports[i];
        printf("import %u %u %u %u %u %u %u %u %u %u %zu %zu\n", (unsigned)row->lo, (unsigned)row->hi,
               (unsigned)row->statement_lo, (unsigned)row->statement_hi, (unsigned)row->paren, (unsigned)row->attributes_lo,
               (unsigned)row->attributes_hi, (unsigned)row->form, (unsigned)row->phase, (unsigned)row->flags,
               row->first_export, row->exports);
    }
    for (size_t i = 0; i < told.exports; i++) {
        const struct ecma_export *row = &exports[i];
        printf("export %u %u %u %u %u\n", (unsigned)row->lo, (unsigned)row->hi, (unsigned)row->local_lo,
               (unsigned)row->local_hi, (unsigned)row->flags);
    }
    printf("module %u\n", (unsigned)told.flags);
    free(exports);
    free(imports);
    struct ecma_answer answer = {told.imports + told.exports, told.status};
    return answer;
}

static struct ecma_answer tell_canonical(const uint8_t *text, size_t len, uint32_t options, const uint32_t *slashes,
                                         size_t slashes_len) {
    struct ecma_answer counted = ecma_canonical(text, len, options, slashes, slashes_len, NULL, 0);
    uint8_t *bytes = (uint8_t *)calloc(counted.count + 1, 1);
    struct ecma_answer told = ecma_canonical(text, len, options, slashes, slashes_len, bytes, counted.count);
    fwrite(bytes, 1, told.count, stdout);
    putchar('\n');
    free(bytes);
    return told;
}

int main(int argc, char **argv) {
    if (argc < 4) {
        fprintf(stderr, "%s tokens|comments|errors|imports|canonical FILE OPTIONS [PLACE..]\n", argv[0]);
        return 2;
    }
    size_t len;
    uint8_t *text = read_file(argv[2], &len);
    uint32_t options = (uint32_t)strtoul(argv[3], NULL, 10);
    size_t slashes_len = (size_t)(argc - 4);
    uint32_t *slashes = (uint32_t *)calloc(slashes_len + 1, sizeof *slashes);
    for (size_t i = 0; i < slashes_len; i++) {
        slashes[i] = (uint32_t)strtoul(argv[4 + i], NULL, 10);
    }
    /* Nothing is given by null pointers, which the header takes. */
    const uint8_t *bytes = len > 0 ? text : NULL;
    const uint32_t *places = slashes_len > 0 ? slashes : NULL;
    struct ecma_answer told;
    if (strcmp(argv[1], "comments") == 0) {
        told = tell_comments(bytes, len, options, places, slashes_len);
    } else if (strcmp(argv[1], "errors") == 0) {
        told = tell_errors(bytes, len, options, places, slashes_len);
    } else if (strcmp(argv[1], "imports") == 0) {
        told = tell_imports(bytes, len, options, places, slashes_len);
    } else if (strcmp(argv[1], "canonical") == 0) {
        told = tell_canonical(bytes, len, options, places, slashes_len);
    } else {
        told = tell_tokens(bytes, len, options, places, slashes_len);
    }
    printf("status %u count %zu\n", (unsigned)told.status, told.count);
    free(slashes);
    free(text);
    return 0;
}
