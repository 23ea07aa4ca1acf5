/* Builds the graph of files by a resolution of its own, and prints it: folder FILE
 * FILE is an absolute path. A specifier that is no file is tried with .ts, .js and /index.ts behind it, and redirects to what
 * is there. Each line is a specifier and what it is, and below it FILE:LINE:COLUMN of each edge and where that leads. */
#include <joravelsu.h>

#include <stdio.h>
#include <stdlib.h>
#include <string.h>
#include <sys/stat.h>

static const char *const states[] = {"module", "redirect", "package", "external", "error"};
static const char *const endings[] = {"", ".ts", ".js", "/index.ts"};

/* The whole file, or NULL. */
static uint8_t *read_whole(const char *path, size_t *length)
{
    struct stat told;
    FILE *file = stat(path, &told) == 0 && S_ISREG(told.st_mode) ? fopen(path, "rb") : NULL;
    uint8_t *bytes = file ? malloc((size_t)told.st_size + 1) : NULL;
    if (bytes)
        *length = fread(bytes, 1, (size_t)told.st_size, file);
    if (file)
        fclose(file);
    return bytes;
}

/* Answers the request for a file: URL by the first file that is there. Names with % in them are left out here. */
static uint32_t answer(joravelsu_graph *graph, size_t number, const char *url)
{
    for (size_t i = 0; strncmp(url, "file:///", 8) == 0 && i < 4; i++) {
        char path[5000];
        size_t length = 0;
        snprintf(path, sizeof path, "%s%s", url, endings[i]);
        uint8_t *bytes = read_whole(path + 7, &length);
        if (!bytes)
            continue;
        uint32_t status = i == 0 ? joravelsu_graph_answer(graph, number, JORAVELSU_CONTENT, bytes, length, bytes, 0)
            : joravelsu_graph_answer(graph, number, JORAVELSU_REDIRECT, (uint8_t *)path, strlen(path), bytes, 0);
        free(bytes);
        return status;
    }
    return joravelsu_graph_answer(graph, number, JORAVELSU_ABSENT, (const uint8_t *)"", 0, (const uint8_t *)"", 0);
}

static uint32_t build(joravelsu_graph *graph, const char *root)
{
    char settings[5000], url[4096], line[4096];
    size_t needed, seen;
    joravelsu_wanted wanted;
    snprintf(settings, sizeof settings, "{\"roots\":[\"file://%s\"],\"modules\":[]}", root);
    uint32_t status =
        joravelsu_graph_new((uint8_t *)settings, strlen(settings), graph, (uint8_t *)line, sizeof line, &needed);
    if (status == JORAVELSU_BAD_BUNDLE)
        fprintf(stderr, "%.*s", needed <= sizeof line ? (int)needed : 0, line);
    while (status == JORAVELSU_DONE && (status = joravelsu_graph_poll(graph, &seen)) == JORAVELSU_NOT_YET) {
        size_t next = 0;
        while ((status = joravelsu_graph_wanted(graph, next, (uint8_t *)url, sizeof url - 1, &wanted)) == JORAVELSU_DONE) {
            url[wanted.needed] = 0;
            if ((status = answer(graph, wanted.number, url)) != JORAVELSU_DONE)
                return status;
            next = wanted.number + 1;
        }
        status = status == JORAVELSU_NONE_WANTED ? JORAVELSU_DONE : status;
    }
    return status;
}

int main(int count, char **words)
{
    joravelsu_graph graph = JORAVELSU_GRAPH_INIT;
    static joravelsu_edge edges[10000];
    static char texts[1 << 20];
    joravelsu_entry entry;
    joravelsu_place place;
    uint32_t status = count == 2 ? build(&graph, words[1]) : 64;
    for (size_t n = 0; status == JORAVELSU_DONE; n++) {
        status = joravelsu_graph_entry(&graph, n, edges, 10000, (uint8_t *)texts, sizeof texts, &entry);
        if (status != JORAVELSU_DONE)
            break;
        printf("%.*s %s\n", (int)entry.specifier_end, texts, states[entry.state]);
        for (size_t i = 0; i < entry.edges; i++) {
            joravelsu_edge *edge = &edges[i];
            joravelsu_graph_place(&graph, n, edge->start, &place);
            printf("  %zu:%zu %.*s -> %.*s\n", place.line, place.column, (int)(edge->value_end - edge->value_start),
                   texts + edge->value_start, (int)(edge->target_end - edge->attribute_end), texts + edge->attribute_end);
        }
    }
    joravelsu_graph_free(&graph);
    return status == JORAVELSU_NO_ENTRY ? 0 : (int)status;
}
