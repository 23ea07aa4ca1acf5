/* The calls of a graph on good and bad use, with each allocation refused in turn: tools/check-library runs it under sanitizers,
 * linked with --wrap=malloc --wrap=realloc. */
#include <joravelsu.h>

#include <stdio.h>
#include <stdlib.h>
#include <string.h>

static long left = -1; /* so many allocations succeed, then one fails */

void *__real_malloc(size_t size);
void *__real_realloc(void *block, size_t size);

void *__wrap_malloc(size_t size)
{
    return left >= 0 && left-- == 0 ? NULL : __real_malloc(size);
}

void *__wrap_realloc(void *block, size_t size)
{
    return left >= 0 && left-- == 0 ? NULL : __real_realloc(block, size);
}

static int failed;

#define IS(want, got) is(__LINE__, (want), (got))

static void is(int line, uint64_t want, uint64_t got)
{
    if (want != got) {
        fprintf(stderr, "graph.c:%d: wanted %llu, got %llu\n", line, (unsigned long long)want, (unsigned long long)got);
        failed = 1;
    }
}

#define BYTES(text) (const uint8_t *)(text), strlen(text)
#define NOTHING (const uint8_t *)"", 0

static const char *const settings = "{\"roots\":[\"file:///a.ts\"],\"modules\":[]}";
static const char *const text = "import './b.ts' with { type: 'json' }; export * from './a.ts';";

static uint32_t begin(joravelsu_graph *graph)
{
    uint8_t line[64];
    size_t needed;
    return joravelsu_graph_new(BYTES(settings), graph, line, sizeof line, &needed);
}

/* Builds a graph of two modules; 5 where memory ran out, after which the caller tries again or gives up. */
static uint32_t run(joravelsu_graph *graph)
{
    uint8_t name[64], texts[256];
    size_t seen;
    joravelsu_wanted wanted;
    joravelsu_edge edges[4];
    joravelsu_entry entry;
    joravelsu_place place;
    uint32_t status = begin(graph);
    if (status)
        return status;
    if ((status = joravelsu_graph_poll(graph, &seen)) != JORAVELSU_NOT_YET)
        return status;
    IS(JORAVELSU_DONE, joravelsu_graph_wanted(graph, 0, name, sizeof name, &wanted));
    IS(0, wanted.number);
    IS(12, wanted.needed);
    IS(0, memcmp(name, "file:///a.ts", 12));
    if ((status = joravelsu_graph_answer(graph, 0, JORAVELSU_CONTENT, BYTES(text), BYTES("text/typescript"))) != 0)
        return status;
    IS(JORAVELSU_NONE_WANTED, joravelsu_graph_wanted(graph, 0, name, sizeof name, &wanted));
    if ((status = joravelsu_graph_poll(graph, &seen)) != JORAVELSU_NOT_YET)
        return status;
    IS(JORAVELSU_DONE, joravelsu_graph_wanted(graph, 0, name, sizeof name, &wanted));
    IS(1, wanted.number);
    if ((status = joravelsu_graph_answer(graph, 1, JORAVELSU_CONTENT, BYTES("{}"), BYTES("application/json"))) != 0)
        return status;
    if ((status = joravelsu_graph_poll(graph, &seen)) != JORAVELSU_DONE)
        return status;
    if ((status = joravelsu_graph_entry(graph, 0, edges, 4, texts, sizeof texts, &entry)) != JORAVELSU_DONE)
        return status;
    IS(JORAVELSU_MODULE, entry.state);
    IS(JORAVELSU_TYPESCRIPT, entry.media_type);
    IS(2, entry.edges);
    IS(strlen(text), entry.size);
    IS(1, edges[0].target);
    IS(0, edges[1].target);
    IS(JORAVELSU_EXPORT, edges[1].kind);
    IS(JORAVELSU_ATTRIBUTE, edges[0].attribute);
    IS(0, memcmp(texts + edges[0].value_start, "./b.tsjsonfile:///b.ts", 22));
    return joravelsu_graph_place(graph, 0, edges[1].start, &place);
}

static void bad_use(void)
{
    joravelsu_graph graph = JORAVELSU_GRAPH_INIT;
    uint8_t name[64] = "##", texts[256] = "##";
    size_t seen = 7, needed = 7;
    joravelsu_wanted wanted;
    joravelsu_edge edges[4];
    joravelsu_entry entry;
    joravelsu_place place;
    /* no graph yet */
    IS(JORAVELSU_NO_GRAPH, joravelsu_graph_poll(&graph, &seen));
    IS(0, seen);
    IS(JORAVELSU_NO_GRAPH, joravelsu_graph_wanted(&graph, 0, name, sizeof name, &wanted));
    IS(JORAVELSU_NO_GRAPH, joravelsu_graph_answer(&graph, 0, JORAVELSU_ABSENT, NOTHING, NOTHING));
    IS(JORAVELSU_NO_GRAPH, joravelsu_graph_entry(&graph, 0, edges, 4, texts, sizeof texts, &entry));
    IS(JORAVELSU_NO_GRAPH, joravelsu_graph_place(&graph, 0, 0, &place));
    joravelsu_graph_free(&graph);
    /* settings that are none */
    IS(JORAVELSU_BAD_BUNDLE, joravelsu_graph_new(BYTES("{"), &graph, name, sizeof name, &needed));
    IS(14, needed);
    IS(0, memcmp(name, "error NotJson\n", 14));
    IS(JORAVELSU_BAD_BUNDLE, joravelsu_graph_new(BYTES("{\"modules\":[]}"), &graph, name, 3, &needed));
    IS(22, needed);
    IS(0, memcmp(name, "error NotJson\n", 14));
    IS(JORAVELSU_NO_GRAPH, joravelsu_graph_poll(&graph, &seen));
    /* answers that nobody asked for, a second one, kinds and texts that are none */
    IS(JORAVELSU_DONE, begin(&graph));
    IS(JORAVELSU_HAS_GRAPH, begin(&graph));
    IS(JORAVELSU_NOT_ASKED, joravelsu_graph_answer(&graph, 0, JORAVELSU_ABSENT, NOTHING, NOTHING));
    IS(JORAVELSU_NOT_YET, joravelsu_graph_poll(&graph, &seen));
    IS(JORAVELSU_NOT_YET, joravelsu_graph_poll(&graph, &seen));
    IS(JORAVELSU_NOT_YET, joravelsu_graph_entry(&graph, 0, edges, 4, texts, sizeof texts, &entry));
    IS(JORAVELSU_NOT_ASKED, joravelsu_graph_answer(&graph, 1, JORAVELSU_ABSENT, NOTHING, NOTHING));
    IS(JORAVELSU_NOT_ASKED, joravelsu_graph_answer(&graph, JORAVELSU_NONE, JORAVELSU_ABSENT, NOTHING, NOTHING));
    IS(JORAVELSU_NO_ANSWER, joravelsu_graph_answer(&graph, 0, 5, NOTHING, NOTHING));
    IS(JORAVELSU_NO_URL, joravelsu_graph_answer(&graph, 0, JORAVELSU_REDIRECT, BYTES("b.ts"), NOTHING));
    IS(JORAVELSU_NO_UTF8, joravelsu_graph_answer(&graph, 0, JORAVELSU_REDIRECT, BYTES("file:///\xff"), NOTHING));
    IS(JORAVELSU_NO_UTF8, joravelsu_graph_answer(&graph, 0, JORAVELSU_CONTENT, BYTES("a"), BYTES("\xff")));
    IS(JORAVELSU_NO_ROOM, joravelsu_graph_wanted(&graph, 0, name, 11, &wanted));
    IS(12, wanted.needed);
    IS(JORAVELSU_DONE, joravelsu_graph_wanted(&graph, 0, name, 12, &wanted));
    IS(JORAVELSU_NONE_WANTED, joravelsu_graph_wanted(&graph, 1, name, 12, &wanted));
    IS(JORAVELSU_NONE, wanted.number);
    IS(JORAVELSU_DONE, joravelsu_graph_answer(&graph, 0, JORAVELSU_CONTENT, BYTES(text), NOTHING));
    IS(JORAVELSU_ANSWERED, joravelsu_graph_answer(&graph, 0, JORAVELSU_ABSENT, NOTHING, NOTHING));
    IS(JORAVELSU_NOT_YET, joravelsu_graph_poll(&graph, &seen));
    IS(JORAVELSU_DONE, joravelsu_graph_answer(&graph, 1, JORAVELSU_EXTERNAL, NOTHING, NOTHING));
    IS(JORAVELSU_DONE, joravelsu_graph_poll(&graph, &seen));
    /* after the end */
    IS(JORAVELSU_DONE, joravelsu_graph_poll(&graph, &seen));
    IS(JORAVELSU_ANSWERED, joravelsu_graph_answer(&graph, 1, JORAVELSU_ABSENT, NOTHING, NOTHING));
    IS(JORAVELSU_NOT_ASKED, joravelsu_graph_answer(&graph, 2, JORAVELSU_ABSENT, NOTHING, NOTHING));
    /* buffers that are too small, and buffers of nothing */
    IS(JORAVELSU_NO_ROOM, joravelsu_graph_entry(&graph, 0, edges, 1, texts, sizeof texts, &entry));
    IS(2, entry.edges);
    IS(JORAVELSU_NO_ROOM, joravelsu_graph_entry(&graph, 0, edges, 4, texts, entry.text_bytes - 1, &entry));
    IS('#', texts[0]);
    IS(JORAVELSU_DONE, joravelsu_graph_entry(&graph, 1, edges, 0, texts, 12, &entry));
    IS(JORAVELSU_EXTERNAL_ENTRY, entry.state);
    IS(JORAVELSU_NO_TYPE, entry.media_type);
    IS(JORAVELSU_NO_ENTRY, joravelsu_graph_entry(&graph, 2, edges, 4, texts, sizeof texts, &entry));
    IS(JORAVELSU_NO_TEXT, joravelsu_graph_place(&graph, 0, 1000, &place));
    IS(JORAVELSU_NO_TEXT, joravelsu_graph_place(&graph, 1, 0, &place));
    IS(JORAVELSU_NO_TEXT, joravelsu_graph_place(&graph, 2, 0, &place));
    /* a freed one, twice */
    joravelsu_graph_free(&graph);
    joravelsu_graph_free(&graph);
    IS(JORAVELSU_NO_GRAPH, joravelsu_graph_poll(&graph, &seen));
}

int main(void)
{
    uint32_t status = JORAVELSU_NO_MEMORY;
    long count = 0;
    bad_use();
    for (; status == JORAVELSU_NO_MEMORY && count < 100000; count++) {
        joravelsu_graph graph = JORAVELSU_GRAPH_INIT;
        size_t seen;
        left = count;
        status = run(&graph);
        if (left >= 0 && status == JORAVELSU_NO_MEMORY)
            IS(0, 1); /* nothing was refused */
        left = -1;
        /* it can be used on, or has ended */
        if (status == JORAVELSU_NO_MEMORY && graph.live) {
            uint32_t later = joravelsu_graph_poll(&graph, &seen);
            IS(1, later == JORAVELSU_NOT_YET || later == JORAVELSU_ENDED || later == JORAVELSU_DONE);
        }
        joravelsu_graph_free(&graph);
    }
    IS(JORAVELSU_DONE, status);
    printf("%ld allocations refused in turn\n", count - 1);
    return failed;
}
