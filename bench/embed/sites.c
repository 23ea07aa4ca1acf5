/* Finds the sites of each file that standard input names, some rounds over all: prints the milliseconds of the best round,
 * the files that were read, and their sites. */
#include <joravelsu.h>

#include <stdio.h>
#include <stdlib.h>
#include <string.h>
#include <time.h>

enum { ROUNDS = 5, SITES = 65536, VALUES = 1 << 20, FILES = 65536 };

static struct {
    uint8_t *text;
    size_t length;
} files[FILES];

static double milliseconds(void)
{
    struct timespec now;
    clock_gettime(CLOCK_MONOTONIC, &now);
    return now.tv_sec * 1e3 + now.tv_nsec / 1e6;
}

static int read_file(const char *path, size_t at)
{
    FILE *file = fopen(path, "rb");
    if (!file || fseek(file, 0, SEEK_END) != 0)
        return 0;
    files[at].length = (size_t)ftell(file);
    files[at].text = malloc(files[at].length + 1);
    rewind(file);
    int whole = files[at].text && fread(files[at].text, 1, files[at].length, file) == files[at].length;
    fclose(file);
    return whole;
}

int main(void)
{
    static char path[4096];
    size_t count = 0;
    while (count < FILES && fgets(path, sizeof path, stdin)) {
        path[strcspn(path, "\n")] = 0;
        if (!read_file(path, count++))
            return 1;
    }
    joravelsu_site *sites = malloc(SITES * sizeof *sites);
    uint8_t *values = malloc(VALUES);
    if (!sites || !values)
        return 1;
    double best = 1e18;
    size_t were_read = 0, found = 0;
    for (int round = 0; round < ROUNDS; round++) {
        were_read = found = 0;
        double start = milliseconds();
        for (size_t i = 0; i < count; i++) {
            joravelsu_answer answer;
            if (joravelsu_sites(files[i].text, files[i].length, JORAVELSU_MJS, sites, SITES, values, VALUES, &answer) == 0) {
                were_read++;
                found += answer.sites;
            }
        }
        double took = milliseconds() - start;
        best = took < best ? took : best;
    }
    printf("%.3f %zu %zu\n", best, were_read, found);
    return 0;
}
