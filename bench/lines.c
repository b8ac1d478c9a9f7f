// What a line of the counter program costs beside the operation that it asks for. The store holds 300 records in 8,192 words. Find lines
// and enter lines go through the program from a file to a file; the same finds and entries are made in this process through the library.
// Best of several alternating rounds. bench/lines builds and runs it.
#include "../include/plots.h"
#include <stdio.h>
#include <stdlib.h>
#include <time.h>

enum { WORDS = 8192, RECORDS = 300, FINDS = 200000, STORES = 500, ROUNDS = 7 };

static uint32_t store[WORDS], keys[RECORDS];

static double now(void)
{
    struct timespec t;
    clock_gettime(CLOCK_MONOTONIC, &t);
    return t.tv_sec * 1e9 + t.tv_nsec;
}

static double least(double a, double b) { return a < b ? a : b; }

static uint32_t set_up(void)
{
    uint64_t reply[4];
    return plots_set_up(store, WORDS, 3, 8, 120, 120, reply, 4);
}

static uint32_t enter(int i)
{
    uint64_t reply[4];
    return plots_enter(store, WORDS, keys[i], 100000 + i, 36525, 60000 + i, reply, 4);
}

static void line(FILE *f, int kind, uint32_t a, uint32_t b, uint32_t c, uint32_t d) { fprintf(f, "%2d%10u%10u%10u%10u\n", kind, a, b, c, d); }

static void filling(FILE *f)
{
    line(f, 0, 3, 8, 120, 120);
    for (int i = 0; i < RECORDS; i++)
        line(f, 1, keys[i], 100000 + i, 36525, 60000 + i);
}

static double run(const char *program, const char *input)
{
    char command[600];
    snprintf(command, sizeof command, "%s <%s >%s.out", program, input, input);
    double began = now();
    if (system(command) != 0)
        exit(1);
    return now() - began;
}

int main(int words, char **word)
{
    if (words != 3)
        return 2;
    const char *program = word[1], *folder = word[2];
    char filled[500], finds[500], enters[500];
    snprintf(filled, sizeof filled, "%s/filled", folder);
    snprintf(finds, sizeof finds, "%s/finds", folder);
    snprintf(enters, sizeof enters, "%s/enters", folder);
    uint32_t n = 1;
    for (int i = 0; i < RECORDS; i++)
        keys[i] = (n = n * 1664525u + 1013904223u);

    FILE *f = fopen(filled, "w"), *g = fopen(finds, "w"), *h = fopen(enters, "w");
    if (!f || !g || !h)
        return 1;
    filling(f);
    filling(g);
    for (int i = 0; i < FINDS; i++)
        line(g, 2, keys[i % RECORDS], 0, 0, 0);
    for (int i = 0; i < STORES; i++)
        filling(h);
    fclose(f), fclose(g), fclose(h);

    double start = 1e18, find_lines = 1e18, enter_lines = 1e18, find = 1e18, entry = 1e18;
    uint64_t reply[4], found = 0, entered = 0;
    for (int round = 0; round < ROUNDS; round++) {
        start = least(start, run(program, filled));
        find_lines = least(find_lines, run(program, finds));
        enter_lines = least(enter_lines, run(program, enters));
        double began = now();
        for (int i = 0; i < STORES; i++) {
            set_up();
            for (int j = 0; j < RECORDS; j++)
                entered += enter(j) == 0;
        }
        entry = least(entry, (now() - began) / (STORES * RECORDS));
        began = now();
        for (int i = 0; i < FINDS; i++)
            found += plots_find(store, WORDS, keys[i % RECORDS], reply, 4) == 0;
        find = least(find, (now() - began) / FINDS);
    }
    if (found != (uint64_t)ROUNDS * FINDS || entered != (uint64_t)ROUNDS * STORES * RECORDS) {
        fprintf(stderr, "lines: not every record was entered and found\n");
        return 1;
    }
    double find_line = (find_lines - start) / FINDS, enter_line = (enter_lines - start) / (STORES * (RECORDS + 1));
    printf("find lines:  %8.0f a second, %5.0f ns a line; a find alone %4.0f ns; reading, parsing and writing a line: %.2f finds\n", 1e9 / find_line,
           find_line, find, (find_line - find) / find);
    printf("enter lines: %8.0f a second, %5.0f ns a line; an entry alone %4.0f ns; reading, parsing and writing a line: %.2f entries, %.2f finds\n",
           1e9 / enter_line, enter_line, entry, (enter_line - entry) / entry, (enter_line - entry) / find);
    return 0;
}
