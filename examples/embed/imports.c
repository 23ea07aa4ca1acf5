/* Prints where a source names other modules, and then its calls that may load one and are no sites: imports FILE
 * Each line is FILE:LINE:COLUMN: KIND "VALUE", both from 1, the column in bytes, with the import attribute behind it where
 * there is one; or FILE:LINE:COLUMN: unread and the call. The media type is by the file's ending. */
#include <joravelsu.h>

#include <stdio.h>
#include <stdlib.h>
#include <string.h>

static const char *const kinds[] = {
    "import", "export", "import-equals", "dynamic", "reference-path", "reference-types", "wasm", "referrer",
    "import-source", "import-defer", "dynamic-source", "dynamic-defer", "require", "require-resolve", "type-import", "worker", "address",
};

static uint32_t media_type_of(const char *path)
{
    const char *ending = strrchr(path, '.');
    if (ending && strcmp(ending, ".ts") == 0)
        return JORAVELSU_TYPESCRIPT;
    if (ending && strcmp(ending, ".mts") == 0)
        return JORAVELSU_MTS;
    if (ending && strcmp(ending, ".mjs") == 0)
        return JORAVELSU_MJS;
    return JORAVELSU_JAVASCRIPT;
}

/* The whole file, or NULL. */
static uint8_t *read_whole(const char *path, size_t *length)
{
    FILE *file = fopen(path, "rb");
    uint8_t *bytes = NULL;
    size_t held = 0;
    *length = 0;
    while (file && !ferror(file)) {
        if (*length == held) {
            uint8_t *more = realloc(bytes, held = held ? 2 * held : 4096);
            if (!more)
                break;
            bytes = more;
        }
        size_t n = fread(bytes + *length, 1, held - *length, file);
        *length += n;
        if (n == 0) {
            fclose(file);
            return bytes;
        }
    }
    if (file)
        fclose(file);
    free(bytes);
    return NULL;
}

/* The line and the column of a place, both from 1. */
static void find_place(const uint8_t *text, size_t place, size_t *line, size_t *column)
{
    *line = 1;
    *column = 1;
    for (size_t i = 0; i < place; i++) {
        *column += 1;
        if (text[i] == '\n') {
            *line += 1;
            *column = 1;
        }
    }
}

/* Both buffers, made as large as the call says. */
static uint32_t find_sites(const uint8_t *text, size_t length, uint32_t media_type, joravelsu_site **sites,
                           uint8_t **values, joravelsu_answer *answer)
{
    size_t sites_length = 64, values_length = 4096;
    for (;;) {
        *sites = malloc(sites_length * sizeof **sites);
        *values = malloc(values_length);
        if (!*sites || !*values)
            return JORAVELSU_NO_MEMORY;
        uint32_t status = joravelsu_sites(text, length, media_type, *sites, sites_length, *values, values_length, answer);
        if (status != JORAVELSU_NO_ROOM)
            return status;
        free(*sites);
        free(*values);
        sites_length = answer->sites + 1;
        values_length = answer->value_bytes + 1;
    }
}

static void print_sites(const char *path, const uint8_t *text, const joravelsu_site *sites, size_t count, const uint8_t *values)
{
    for (size_t i = 0; i < count; i++) {
        const joravelsu_site *it = &sites[i];
        size_t line, column;
        find_place(text, it->start, &line, &column);
        printf("%s:%zu:%zu: %s%s \"%.*s\"", path, line, column, kinds[it->kind], it->type_only && it->kind < JORAVELSU_DYNAMIC ? "-type" : "",
               (int)(it->value_end - it->value_start), (const char *)values + it->value_start);
        if (it->attribute == JORAVELSU_ATTRIBUTE)
            printf(" with \"%.*s\"", (int)(it->attribute_end - it->attribute_start), (const char *)values + it->attribute_start);
        printf("\n");
    }
}

/* The calls that are no sites, in a buffer that is made as large as the call says. */
static uint32_t print_unread(const char *path, const uint8_t *text, size_t length)
{
    joravelsu_unread_answer answer;
    joravelsu_call none;
    uint32_t status = joravelsu_unread(text, length, &none, 0, &answer);
    if (status != JORAVELSU_NO_ROOM)
        return status;
    joravelsu_call *calls = malloc(answer.calls * sizeof *calls);
    if (!calls)
        return JORAVELSU_NO_MEMORY;
    status = joravelsu_unread(text, length, calls, answer.calls, &answer);
    for (size_t i = 0; status == JORAVELSU_DONE && i < answer.calls; i++) {
        size_t line, column;
        find_place(text, calls[i].start, &line, &column);
        printf("%s:%zu:%zu: unread %.*s\n", path, line, column, (int)(calls[i].end - calls[i].start), (const char *)text + calls[i].start);
    }
    free(calls);
    return status;
}

int main(int count, char **words)
{
    if (count != 2) {
        fprintf(stderr, "usage: imports FILE\n");
        return 64;
    }
    size_t length;
    uint8_t *bytes = read_whole(words[1], &length);
    if (!bytes) {
        perror(words[1]);
        return 1;
    }
    /* Places count from behind a byte order mark. */
    size_t mark = length >= 3 && memcmp(bytes, "\xEF\xBB\xBF", 3) == 0 ? 3 : 0;
    const uint8_t *text = bytes + mark;
    joravelsu_site *sites;
    uint8_t *values;
    joravelsu_answer answer;
    uint32_t status = find_sites(bytes, length, media_type_of(words[1]), &sites, &values, &answer);
    if (status == JORAVELSU_DONE) {
        print_sites(words[1], text, sites, answer.sites, values);
        status = print_unread(words[1], text, length - mark);
    } else if (status == JORAVELSU_LEXICAL_FAULT || status == JORAVELSU_SYNTAX_FAULT) {
        size_t line, column;
        find_place(text, answer.place, &line, &column);
        fprintf(stderr, "%s:%zu:%zu: this isn't read\n", words[1], line, column);
    } else if (status == JORAVELSU_NO_UTF8)
        fprintf(stderr, "%s: byte %zu is no UTF-8\n", words[1], answer.place);
    else
        fprintf(stderr, "%s: status %u\n", words[1], (unsigned)status);
    free(sites);
    free(values);
    free(bytes);
    return (int)status;
}
