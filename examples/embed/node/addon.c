/* The C library for Node: each function takes bytes, and returns an object with the library's status, or its result. index.js
 * has the functions that a program calls. */
#define NAPI_VERSION 8
#include <joravelsu.h>
#include <node_api.h>

#include <stdlib.h>
#include <string.h>

/* A failed call of Node has set an exception: the function returns at once. */
#define TRY(call) do { if ((call) != napi_ok) return NULL; } while (0)

static napi_value out_of_memory(napi_env env)
{
    napi_throw_error(env, "ERR_MEMORY_ALLOCATION_FAILED", "out of memory");
    return NULL;
}

/* The bytes of an argument, which index.js makes a Uint8Array. An empty one may have no address. */
static napi_status bytes_of(napi_env env, napi_value value, const uint8_t **bytes, size_t *length)
{
    void *data = NULL;
    napi_typedarray_type type;
    napi_status status = napi_get_typedarray_info(env, value, &type, length, &data, NULL, NULL);
    *bytes = *length && data ? data : (const uint8_t *)"";
    return status;
}

static napi_status put_number(napi_env env, napi_value object, const char *name, double number)
{
    napi_value value;
    napi_status status = napi_create_double(env, number, &value);
    return status == napi_ok ? napi_set_named_property(env, object, name, value) : status;
}

static napi_status put_text(napi_env env, napi_value object, const char *name, const uint8_t *text, size_t start, size_t end)
{
    napi_value value;
    napi_status status = napi_create_string_utf8(env, (const char *)text + start, end - start, &value);
    return status == napi_ok ? napi_set_named_property(env, object, name, value) : status;
}

/* { status, place, change }: why a text isn't read, or a change isn't made. */
static napi_value refused(napi_env env, uint32_t status, size_t place, size_t change)
{
    napi_value object;
    if (status == JORAVELSU_NO_MEMORY)
        return out_of_memory(env);
    TRY(napi_create_object(env, &object));
    TRY(put_number(env, object, "status", status));
    TRY(put_number(env, object, "place", (double)place));
    TRY(put_number(env, object, "change", (double)change));
    return object;
}

static napi_value site_of(napi_env env, const joravelsu_site *site, const uint8_t *values)
{
    napi_value object, flag;
    TRY(napi_create_object(env, &object));
    TRY(put_number(env, object, "kind", site->kind));
    TRY(napi_get_boolean(env, site->type_only, &flag));
    TRY(napi_set_named_property(env, object, "typeOnly", flag));
    TRY(put_number(env, object, "start", (double)site->start));
    TRY(put_number(env, object, "end", (double)site->end));
    TRY(put_text(env, object, "value", values, site->value_start, site->value_end));
    TRY(put_number(env, object, "has", site->attribute));
    TRY(put_text(env, object, "attribute", values, site->attribute_start, site->attribute_end));
    return object;
}

static napi_value sites_of(napi_env env, const joravelsu_site *sites, size_t count, const uint8_t *values)
{
    napi_value list;
    TRY(napi_create_array_with_length(env, count, &list));
    for (size_t i = 0; i < count; i++) {
        napi_value site = site_of(env, &sites[i], values);
        if (!site)
            return NULL;
        TRY(napi_set_element(env, list, (uint32_t)i, site));
    }
    return list;
}

/* sites(text, mediaType): a list, or why there is none. */
static napi_value sites(napi_env env, napi_callback_info info)
{
    size_t count = 2, length, room = 64, value_room = 4096;
    napi_value words[2], result = NULL;
    const uint8_t *text;
    uint32_t media_type, status = JORAVELSU_NO_ROOM;
    joravelsu_answer answer = {0};
    TRY(napi_get_cb_info(env, info, &count, words, NULL, NULL));
    TRY(bytes_of(env, words[0], &text, &length));
    TRY(napi_get_value_uint32(env, words[1], &media_type));
    while (status == JORAVELSU_NO_ROOM) {
        joravelsu_site *found = calloc(room + 1, sizeof *found);
        uint8_t *values = malloc(value_room + 1);
        if (found && values) {
            status = joravelsu_sites(text, length, media_type, found, room, values, value_room, &answer);
            room = answer.sites;
            value_room = answer.value_bytes;
            if (status == JORAVELSU_DONE)
                result = sites_of(env, found, answer.sites, values);
        } else {
            status = JORAVELSU_NO_MEMORY;
        }
        free(found);
        free(values);
    }
    return status == JORAVELSU_DONE ? result : refused(env, status, answer.place, 0);
}

/* unread(text): a list of numbers, three for each call, or why there is none. */
static napi_value unread(napi_env env, napi_callback_info info)
{
    size_t count = 1, length, room = 64;
    napi_value words[1], list = NULL;
    const uint8_t *text;
    uint32_t status = JORAVELSU_NO_ROOM;
    joravelsu_unread_answer answer = {0};
    TRY(napi_get_cb_info(env, info, &count, words, NULL, NULL));
    TRY(bytes_of(env, words[0], &text, &length));
    while (status == JORAVELSU_NO_ROOM) {
        joravelsu_call *calls = calloc(room + 1, sizeof *calls);
        status = calls ? joravelsu_unread(text, length, calls, room, &answer) : JORAVELSU_NO_MEMORY;
        room = answer.calls;
        napi_status made = status == JORAVELSU_DONE ? napi_create_array(env, &list) : napi_ok;
        for (size_t i = 0; status == JORAVELSU_DONE && made == napi_ok && i < 3 * answer.calls; i++) {
            const joravelsu_call *it = &calls[i / 3];
            napi_value number;
            made = napi_create_double(env, i % 3 == 0 ? it->kind : i % 3 == 1 ? (double)it->start : (double)it->end, &number);
            if (made == napi_ok)
                made = napi_set_element(env, list, (uint32_t)i, number);
        }
        free(calls);
        TRY(made);
    }
    return status == JORAVELSU_DONE ? list : refused(env, status, answer.place, 0);
}

/* mentions(text, mediaType, allowed, strict): a list of numbers, three for each mention, or why there is none. */
static napi_value mentions(napi_env env, napi_callback_info info)
{
    size_t count = 4, length, allowed_length, room = 64;
    uint32_t media_type, strict, status = JORAVELSU_NO_ROOM;
    napi_value words[4], list = NULL;
    const uint8_t *text, *allowed;
    joravelsu_mentions_answer answer = {0};
    TRY(napi_get_cb_info(env, info, &count, words, NULL, NULL));
    TRY(bytes_of(env, words[0], &text, &length));
    TRY(napi_get_value_uint32(env, words[1], &media_type));
    TRY(bytes_of(env, words[2], &allowed, &allowed_length));
    TRY(napi_get_value_uint32(env, words[3], &strict));
    while (status == JORAVELSU_NO_ROOM) {
        joravelsu_mention *found = calloc(room + 1, sizeof *found);
        status = found ? joravelsu_mentions(text, length, media_type, allowed, allowed_length, strict, found, room, &answer) : JORAVELSU_NO_MEMORY;
        room = answer.mentions;
        napi_status made = status == JORAVELSU_DONE ? napi_create_array(env, &list) : napi_ok;
        for (size_t i = 0; status == JORAVELSU_DONE && made == napi_ok && i < 3 * answer.mentions; i++) {
            const joravelsu_mention *it = &found[i / 3];
            napi_value number;
            made = napi_create_double(env, i % 3 == 0 ? it->reason : i % 3 == 1 ? (double)it->start : (double)it->end, &number);
            if (made == napi_ok)
                made = napi_set_element(env, list, (uint32_t)i, number);
        }
        free(found);
        TRY(made);
    }
    return status == JORAVELSU_DONE ? list : refused(env, status, answer.place, 0);
}

/* rewrite(text, mediaType, changes, values): changes are three numbers each. The new text, or why there is none. */
static napi_value rewrite(napi_env env, napi_callback_info info)
{
    size_t count = 4, length, value_length, room;
    uint32_t media_type, numbers, status = JORAVELSU_NO_ROOM;
    napi_value words[4], result = NULL;
    const uint8_t *text, *values;
    joravelsu_rewrite_answer answer = {0};
    TRY(napi_get_cb_info(env, info, &count, words, NULL, NULL));
    TRY(bytes_of(env, words[0], &text, &length));
    TRY(napi_get_value_uint32(env, words[1], &media_type));
    TRY(napi_get_array_length(env, words[2], &numbers));
    TRY(bytes_of(env, words[3], &values, &value_length));
    joravelsu_change *changes = calloc(numbers / 3 + 1, sizeof *changes);
    if (!changes)
        return out_of_memory(env);
    for (uint32_t i = 0; i < numbers; i++) {
        napi_value word;
        int64_t number = 0;
        if (napi_get_element(env, words[2], i, &word) != napi_ok || napi_get_value_int64(env, word, &number) != napi_ok) {
            free(changes);
            return NULL;
        }
        *(i % 3 == 0 ? &changes[i / 3].site : i % 3 == 1 ? &changes[i / 3].value_start : &changes[i / 3].value_end) =
            (size_t)number;
    }
    for (room = length + 2 * value_length + 64; status == JORAVELSU_NO_ROOM; room = answer.needed) {
        uint8_t *buffer = malloc(room + 1);
        status = buffer ? joravelsu_rewrite(text, length, media_type, changes, numbers / 3, values, value_length, buffer, room,
                                            &answer)
                        : JORAVELSU_NO_MEMORY;
        if (status == JORAVELSU_DONE && napi_create_string_utf8(env, (char *)buffer, answer.needed, &result) != napi_ok)
            result = NULL;
        free(buffer);
    }
    free(changes);
    return status == JORAVELSU_DONE ? result : refused(env, status, answer.place, answer.change);
}

static napi_value names_of(napi_env env, const joravelsu_name *names, size_t count, const uint8_t *values)
{
    napi_value list, name;
    TRY(napi_create_array_with_length(env, count, &list));
    for (size_t i = 0; i < count; i++) {
        TRY(napi_create_string_utf8(env, (const char *)values + names[i].start, names[i].end - names[i].start, &name));
        TRY(napi_set_element(env, list, (uint32_t)i, name));
    }
    return list;
}

/* exports(text, mediaType, commonJs): [names, reexports], or why there are none. */
static napi_value exports_of(napi_env env, napi_callback_info info)
{
    size_t count = 3, length, room = 64, value_room = 4096;
    napi_value words[3], names = NULL, again = NULL, result;
    const uint8_t *text;
    uint32_t media_type, common_js, status = JORAVELSU_NO_ROOM;
    joravelsu_exports_answer answer = {0};
    TRY(napi_get_cb_info(env, info, &count, words, NULL, NULL));
    TRY(bytes_of(env, words[0], &text, &length));
    TRY(napi_get_value_uint32(env, words[1], &media_type));
    TRY(napi_get_value_uint32(env, words[2], &common_js));
    while (status == JORAVELSU_NO_ROOM) {
        joravelsu_name *found = calloc(room + 1, sizeof *found);
        uint8_t *values = malloc(value_room + 1);
        if (found && values) {
            status = joravelsu_exports(text, length, media_type, common_js, found, room, values, value_room, &answer);
            room = answer.exports + answer.reexports;
            value_room = answer.value_bytes;
            if (status == JORAVELSU_DONE) {
                names = names_of(env, found, answer.exports, values);
                again = names ? names_of(env, found + answer.exports, answer.reexports, values) : NULL;
            }
        } else {
            status = JORAVELSU_NO_MEMORY;
        }
        free(found);
        free(values);
    }
    if (status != JORAVELSU_DONE)
        return refused(env, status, answer.place, 0);
    if (!again)
        return NULL;
    TRY(napi_create_array_with_length(env, 2, &result));
    TRY(napi_set_element(env, result, 0, names));
    TRY(napi_set_element(env, result, 1, again));
    return result;
}

static napi_value declarations_in(napi_env env, const joravelsu_diagnostic *found, size_t count, const uint8_t *text, size_t length)
{
    napi_value result, list, value;
    TRY(napi_create_array_with_length(env, 2, &result));
    TRY(napi_create_string_utf8(env, (const char *)text, length, &value));
    TRY(napi_set_element(env, result, 0, value));
    TRY(napi_create_array_with_length(env, 3 * count, &list));
    for (size_t i = 0; i < 3 * count; i++) {
        const joravelsu_diagnostic *it = &found[i / 3];
        TRY(napi_create_double(env, i % 3 == 0 ? it->kind : i % 3 == 1 ? (double)it->start : (double)it->end, &value));
        TRY(napi_set_element(env, list, (uint32_t)i, value));
    }
    TRY(napi_set_element(env, result, 1, list));
    return result;
}

/* declarations(text, mediaType, comments): [text, numbers], three numbers for each diagnostic, or why there are none. */
static napi_value declarations(napi_env env, napi_callback_info info)
{
    size_t count = 3, length, room = 64, text_room;
    napi_value words[3], result = NULL;
    const uint8_t *text;
    uint32_t media_type, comments, status = JORAVELSU_NO_ROOM;
    joravelsu_declarations_answer answer = {0};
    TRY(napi_get_cb_info(env, info, &count, words, NULL, NULL));
    TRY(bytes_of(env, words[0], &text, &length));
    TRY(napi_get_value_uint32(env, words[1], &media_type));
    TRY(napi_get_value_uint32(env, words[2], &comments));
    text_room = 2 * length + 64;
    while (status == JORAVELSU_NO_ROOM) {
        joravelsu_diagnostic *found = calloc(room + 1, sizeof *found);
        uint8_t *buffer = malloc(text_room + 1);
        if (found && buffer) {
            status = joravelsu_declarations(text, length, media_type, comments, found, room, buffer, text_room, &answer);
            room = answer.diagnostics;
            text_room = answer.text_bytes;
            if (status == JORAVELSU_DONE)
                result = declarations_in(env, found, answer.diagnostics, buffer, answer.text_bytes);
        } else {
            status = JORAVELSU_NO_MEMORY;
        }
        free(found);
        free(buffer);
    }
    return status == JORAVELSU_DONE ? result : refused(env, status, answer.place, 0);
}

/* report(bundle): { status, text }, of the report or of the line of a refusal. */
static napi_value report(napi_env env, napi_callback_info info)
{
    size_t count = 1, length, room, needed = 0;
    napi_value words[1], object = NULL;
    const uint8_t *bundle;
    uint32_t status = JORAVELSU_NO_ROOM;
    TRY(napi_get_cb_info(env, info, &count, words, NULL, NULL));
    TRY(bytes_of(env, words[0], &bundle, &length));
    for (room = 2 * length + 4096; status == JORAVELSU_NO_ROOM; room = needed) {
        uint8_t *buffer = malloc(room + 1);
        status = buffer ? joravelsu_build(bundle, length, buffer, room, &needed) : JORAVELSU_NO_MEMORY;
        napi_status made = napi_ok;
        if (status != JORAVELSU_NO_ROOM && status != JORAVELSU_NO_MEMORY) {
            made = napi_create_object(env, &object);
            if (made == napi_ok)
                made = put_text(env, object, "text", buffer, 0, needed);
        }
        free(buffer);
        TRY(made);
    }
    if (status == JORAVELSU_NO_MEMORY)
        return out_of_memory(env);
    TRY(put_number(env, object, "status", status));
    return object;
}

/* ---- a graph whose loads the caller does: its handle is an external value, which frees it */

static void free_graph(napi_env env, void *data, void *hint)
{
    (void)env;
    (void)hint;
    joravelsu_graph_free(data);
    free(data);
}

static napi_value graph_new(napi_env env, napi_callback_info info)
{
    size_t count = 1, length, needed = 0;
    napi_value words[1], result;
    const uint8_t *settings;
    uint8_t line[4096];
    const joravelsu_graph none = JORAVELSU_GRAPH_INIT;
    TRY(napi_get_cb_info(env, info, &count, words, NULL, NULL));
    TRY(bytes_of(env, words[0], &settings, &length));
    joravelsu_graph *graph = malloc(sizeof *graph);
    if (!graph)
        return out_of_memory(env);
    *graph = none;
    uint32_t status = joravelsu_graph_new(settings, length, graph, line, sizeof line, &needed);
    if (status != JORAVELSU_DONE) {
        free(graph);
        if (status == JORAVELSU_NO_MEMORY)
            return out_of_memory(env);
        TRY(napi_create_string_utf8(env, (char *)line, needed <= sizeof line ? needed : 0, &result));
        return result;
    }
    if (napi_create_external(env, graph, free_graph, NULL, &result) != napi_ok) {
        free_graph(env, graph, NULL);
        return NULL;
    }
    return result;
}

static napi_status graph_of(napi_env env, napi_value value, joravelsu_graph **graph)
{
    void *data = NULL;
    napi_status status = napi_get_value_external(env, value, &data);
    *graph = data;
    return status;
}

static napi_value numbers_of(napi_env env, const double *numbers, uint32_t count)
{
    napi_value list, number;
    TRY(napi_create_array_with_length(env, count, &list));
    for (uint32_t i = 0; i < count; i++) {
        TRY(napi_create_double(env, numbers[i], &number));
        TRY(napi_set_element(env, list, i, number));
    }
    return list;
}

/* graphPoll(graph): [status, seen] */
static napi_value graph_poll(napi_env env, napi_callback_info info)
{
    size_t count = 1, seen = 0;
    napi_value words[1];
    joravelsu_graph *graph;
    TRY(napi_get_cb_info(env, info, &count, words, NULL, NULL));
    TRY(graph_of(env, words[0], &graph));
    uint32_t status = joravelsu_graph_poll(graph, &seen);
    if (status == JORAVELSU_NO_MEMORY)
        return out_of_memory(env);
    return numbers_of(env, (const double[]){status, (double)seen}, 2);
}

/* graphWanted(graph, from): [number, specifier], or null */
static napi_value graph_wanted(napi_env env, napi_callback_info info)
{
    size_t count = 2, room = 4096;
    int64_t from;
    napi_value words[2], list, word;
    joravelsu_graph *graph;
    joravelsu_wanted wanted;
    TRY(napi_get_cb_info(env, info, &count, words, NULL, NULL));
    TRY(graph_of(env, words[0], &graph));
    TRY(napi_get_value_int64(env, words[1], &from));
    for (;; room = wanted.needed) {
        uint8_t *name = malloc(room + 1);
        if (!name)
            return out_of_memory(env);
        uint32_t status = joravelsu_graph_wanted(graph, (size_t)from, name, room, &wanted);
        napi_status made = status == JORAVELSU_DONE ? napi_create_string_utf8(env, (char *)name, wanted.needed, &word)
                                                     : napi_get_null(env, &word);
        free(name);
        TRY(made);
        if (status == JORAVELSU_NO_ROOM)
            continue;
        if (status != JORAVELSU_DONE)
            return word;
        TRY(napi_create_array_with_length(env, 2, &list));
        TRY(napi_set_element(env, list, 1, word));
        TRY(napi_create_double(env, (double)wanted.number, &word));
        TRY(napi_set_element(env, list, 0, word));
        return list;
    }
}

/* graphAnswer(graph, number, kind, bytes, contentType): a status */
static napi_value graph_answer(napi_env env, napi_callback_info info)
{
    size_t count = 5, length, type_length;
    int64_t number;
    uint32_t kind;
    napi_value words[5], result;
    joravelsu_graph *graph;
    const uint8_t *bytes, *type;
    TRY(napi_get_cb_info(env, info, &count, words, NULL, NULL));
    TRY(graph_of(env, words[0], &graph));
    TRY(napi_get_value_int64(env, words[1], &number));
    TRY(napi_get_value_uint32(env, words[2], &kind));
    TRY(bytes_of(env, words[3], &bytes, &length));
    TRY(bytes_of(env, words[4], &type, &type_length));
    uint32_t status = joravelsu_graph_answer(graph, (size_t)number, kind, bytes, length, type, type_length);
    if (status == JORAVELSU_NO_MEMORY)
        return out_of_memory(env);
    TRY(napi_create_uint32(env, status, &result));
    return result;
}

static napi_value edge_of(napi_env env, const joravelsu_edge *edge, const uint8_t *texts)
{
    napi_value object, flag;
    TRY(napi_create_object(env, &object));
    TRY(put_number(env, object, "kind", edge->kind));
    TRY(napi_get_boolean(env, edge->type_only, &flag));
    TRY(napi_set_named_property(env, object, "typeOnly", flag));
    TRY(put_number(env, object, "start", (double)edge->start));
    TRY(put_number(env, object, "end", (double)edge->end));
    TRY(put_text(env, object, "value", texts, edge->value_start, edge->value_end));
    TRY(put_number(env, object, "has", edge->attribute));
    TRY(put_text(env, object, "attribute", texts, edge->value_end, edge->attribute_end));
    TRY(put_text(env, object, "targetSpecifier", texts, edge->attribute_end, edge->target_end));
    TRY(put_number(env, object, "target", edge->target == JORAVELSU_NONE ? -1 : (double)edge->target));
    TRY(put_number(env, object, "fault", edge->fault));
    return object;
}

static napi_value entry_of(napi_env env, const joravelsu_entry *entry, const joravelsu_edge *edges, const uint8_t *texts)
{
    napi_value object, list;
    TRY(napi_create_object(env, &object));
    TRY(put_number(env, object, "state", entry->state));
    TRY(put_number(env, object, "mediaType", entry->media_type));
    TRY(put_number(env, object, "fault", entry->fault));
    TRY(put_number(env, object, "place", (double)entry->place));
    TRY(put_number(env, object, "size", (double)entry->size));
    TRY(put_text(env, object, "specifier", texts, 0, entry->specifier_end));
    TRY(put_text(env, object, "targetSpecifier", texts, entry->specifier_end, entry->target_end));
    TRY(put_number(env, object, "target", entry->target == JORAVELSU_NONE ? -1 : (double)entry->target));
    TRY(napi_create_array_with_length(env, entry->edges, &list));
    for (size_t i = 0; i < entry->edges; i++) {
        napi_value edge = edge_of(env, &edges[i], texts);
        if (!edge)
            return NULL;
        TRY(napi_set_element(env, list, (uint32_t)i, edge));
    }
    TRY(napi_set_named_property(env, object, "edges", list));
    return object;
}

/* graphEntry(graph, number): an object, or null */
static napi_value graph_entry(napi_env env, napi_callback_info info)
{
    size_t count = 2;
    int64_t number;
    napi_value words[2], result;
    joravelsu_graph *graph;
    joravelsu_entry entry = {.edges = 16, .text_bytes = 2048};
    uint32_t status = JORAVELSU_NO_ROOM;
    TRY(napi_get_cb_info(env, info, &count, words, NULL, NULL));
    TRY(graph_of(env, words[0], &graph));
    TRY(napi_get_value_int64(env, words[1], &number));
    TRY(napi_get_null(env, &result));
    while (status == JORAVELSU_NO_ROOM) {
        size_t room = entry.edges, text_room = entry.text_bytes;
        joravelsu_edge *edges = calloc(room + 1, sizeof *edges);
        uint8_t *texts = malloc(text_room + 1);
        status = edges && texts ? joravelsu_graph_entry(graph, (size_t)number, edges, room, texts, text_room, &entry)
                                : JORAVELSU_NO_MEMORY;
        if (status == JORAVELSU_DONE)
            result = entry_of(env, &entry, edges, texts);
        free(edges);
        free(texts);
    }
    return status == JORAVELSU_NO_MEMORY ? out_of_memory(env) : result;
}

/* graphPlace(graph, number, byte): [line, column], or null */
static napi_value graph_place(napi_env env, napi_callback_info info)
{
    size_t count = 3;
    int64_t number, byte;
    napi_value words[3], none;
    joravelsu_graph *graph;
    joravelsu_place place;
    TRY(napi_get_cb_info(env, info, &count, words, NULL, NULL));
    TRY(graph_of(env, words[0], &graph));
    TRY(napi_get_value_int64(env, words[1], &number));
    TRY(napi_get_value_int64(env, words[2], &byte));
    TRY(napi_get_null(env, &none));
    uint32_t status = joravelsu_graph_place(graph, (size_t)number, (size_t)byte, &place);
    if (status == JORAVELSU_NO_MEMORY)
        return out_of_memory(env);
    return status == JORAVELSU_DONE ? numbers_of(env, (const double[]){(double)place.line, (double)place.column}, 2) : none;
}

static napi_value version(napi_env env, napi_callback_info info)
{
    napi_value number;
    (void)info;
    TRY(napi_create_uint32(env, joravelsu_version(), &number));
    return number;
}

NAPI_MODULE_INIT()
{
    const napi_property_descriptor calls[] = {
        {"sites", NULL, sites, NULL, NULL, NULL, napi_default, NULL},
        {"unread", NULL, unread, NULL, NULL, NULL, napi_default, NULL},
        {"mentions", NULL, mentions, NULL, NULL, NULL, napi_default, NULL},
        {"rewrite", NULL, rewrite, NULL, NULL, NULL, napi_default, NULL},
        {"declarations", NULL, declarations, NULL, NULL, NULL, napi_default, NULL},
        {"exports", NULL, exports_of, NULL, NULL, NULL, napi_default, NULL},
        {"report", NULL, report, NULL, NULL, NULL, napi_default, NULL},
        {"graphNew", NULL, graph_new, NULL, NULL, NULL, napi_default, NULL},
        {"graphPoll", NULL, graph_poll, NULL, NULL, NULL, napi_default, NULL},
        {"graphWanted", NULL, graph_wanted, NULL, NULL, NULL, napi_default, NULL},
        {"graphAnswer", NULL, graph_answer, NULL, NULL, NULL, napi_default, NULL},
        {"graphEntry", NULL, graph_entry, NULL, NULL, NULL, napi_default, NULL},
        {"graphPlace", NULL, graph_place, NULL, NULL, NULL, napi_default, NULL},
        {"version", NULL, version, NULL, NULL, NULL, napi_default, NULL},
    };
    TRY(napi_define_properties(env, exports, sizeof calls / sizeof *calls, calls));
    return exports;
}
