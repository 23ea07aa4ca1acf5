/* The declarations of a text, with each allocation refused in turn: tools/check-library runs it under sanitizers, linked with
 * --wrap=malloc --wrap=realloc. */
#include <joravelsu.h>

#include <stdio.h>
#include <stdlib.h>
#include <string.h>

static long left = -1; /* so many allocations succeed, then one fails */
static long asked;

void *__real_malloc(size_t size);
void *__real_realloc(void *block, size_t size);

static int is_refused(void)
{
    asked++;
    return left >= 0 && left-- == 0;
}

void *__wrap_malloc(size_t size)
{
    return is_refused() ? NULL : __real_malloc(size);
}

void *__wrap_realloc(void *block, size_t size)
{
    return is_refused() ? NULL : __real_realloc(block, size);
}

static int failed;

#define IS(want, got) is(__LINE__, (want), (got))

static void is(int line, uint64_t want, uint64_t got)
{
    if (want != got) {
        fprintf(stderr, "declarations.c:%d: wanted %llu, got %llu\n", line, (unsigned long long)want, (unsigned long long)got);
        failed = 1;
    }
}

static const char *const text =
    "/** a */ export class A { a: number = 2; #b = 3; constructor(private c: string = x, d) { } m(): void; m(e?: any) { } }\n"
    "export const o = { p: [1, ...q], r: f() }; export default [1]; namespace N.M { export let s = f(); }";
static const char *const declared =
    "/** a */\nexport declare class A {\n  a: number;\n  constructor(private c?: string, d: any);\n  m(): void;\n}\n"
    "export declare const o: {\n  readonly p: any;\n  readonly r: any;\n};\n"
    "declare const _dts_1: readonly [number];\nexport default _dts_1;\n"
    "declare namespace N {\n  export let s: any;\n}\n";

static uint8_t buffer[1024];
static joravelsu_diagnostic found[16];
static joravelsu_declarations_answer answer;

static uint32_t declare(size_t room)
{
    memset(buffer, '#', sizeof buffer);
    return joravelsu_declarations((const uint8_t *)text, strlen(text), JORAVELSU_TYPESCRIPT, 1, found, 16, buffer, room, &answer);
}

int main(void)
{
    IS(JORAVELSU_DONE, declare(sizeof buffer));
    IS(strlen(declared), answer.text_bytes);
    IS(0, memcmp(declared, buffer, strlen(declared)));
    IS('#', buffer[answer.text_bytes]);
    IS(5, answer.diagnostics);
    IS(JORAVELSU_ANY_TYPE, found[0].kind);
    IS(JORAVELSU_UNTYPED_SPREAD, found[1].kind);
    IS(JORAVELSU_NO_ROOM, declare(answer.text_bytes - 1));
    IS('#', buffer[0]);
    asked = 0;
    IS(JORAVELSU_DONE, declare(strlen(declared)));
    long all = asked, refused = 0;
    for (long n = 0; n < all; n++) {
        left = n;
        uint32_t status = declare(sizeof buffer);
        left = -1;
        if (status == JORAVELSU_DONE) { /* what was refused wasn't needed */
            IS(0, memcmp(declared, buffer, strlen(declared)));
            continue;
        }
        refused++;
        IS(JORAVELSU_NO_MEMORY, status);
        IS('#', buffer[0]);
        IS(0, answer.diagnostics + answer.text_bytes + answer.fault + answer.place);
    }
    IS(1, refused > 50);
    return failed;
}
