#define _DEFAULT_SOURCE
#include "cases.h"
#include <math.h>
#include <stdarg.h>
#include <stdio.h>
#include <stdlib.h>
#include <string.h>
#include <sys/mman.h>

const uint64_t seed = 0x9E3779B97F4A7C15u;
static uint64_t state;
static const char *test_name;
static char case_name[200];
static int32_t pool[2 * (GUARD + LONGEST + GUARD)]; /* numbers at random, of which a buffer takes a stretch */

/* Reporting. */

void begin(const char *format, ...) {
    va_list rest;
    va_start(rest, format);
    vsnprintf(case_name, sizeof case_name, format, rest);
    va_end(rest);
}

void expect(int holds, const char *format, ...) {
    if (holds) return;
    va_list rest;
    va_start(rest, format);
    printf("%s: %s: ", test_name, case_name);
    vprintf(format, rest);
    printf("\n");
    va_end(rest);
    exit(1);
}

void expect_answer(const char *job, Answer wanted, uint32_t number, size_t place) {
    expect(number == wanted.number && place == wanted.place, "%s answers %u at %zu, expected is %u at %zu", job, (unsigned)number, place,
           (unsigned)wanted.number, wanted.place);
}

void start(const char *test) {
    test_name = test;
    begin("start");
    expect(make_second(), "a table of the second program breaks its rule");
    state = seed;
    for (size_t n = 0; n < COUNT(pool); n++) pool[n] = any(INT32_MIN, INT32_MAX);
}

/* Numbers and samples. */

int32_t any(int32_t low, int32_t high) {
    state ^= state << 13;
    state ^= state >> 7;
    state ^= state << 17;
    return (int32_t)(low + (int64_t)(state % (uint64_t)((int64_t)high - low + 1)));
}

typedef struct { int32_t level, slope_x, slope_y, height, noise; double x, y, width; } Film;

static Film any_film(uint32_t a, uint32_t d) {
    int32_t columns = 8 * (int32_t)a, rows = 8 * (int32_t)d, most = HIGHEST >> any(0, 4);
    Film f;
    f.level = any(-most / 4, most / 4);
    f.slope_x = any(-most / 32, most / 32);
    f.slope_y = any(-most / 32, most / 32);
    f.height = any(-most / 4 * 3, most / 4 * 3);
    f.noise = any(0, most / 512);
    f.x = any(0, columns);
    f.y = any(0, rows);
    f.width = any(1, 8 + columns / 4);
    return f;
}

static int32_t film_sample(const Film *f, int32_t x, int32_t y) {
    double distance = hypot(x - f->x, y - f->y) / f->width;
    double level = f->level + (f->slope_x * x + f->slope_y * y) / 4 + f->height * exp(-distance * distance / 2) + any(-f->noise, f->noise);
    return (int32_t)fmin(HIGHEST, fmax(LOWEST, floor(level)));
}

void make_samples(int32_t *samples, uint32_t a, uint32_t d, enum pattern pattern) {
    Film film = any_film(a, d);
    if (pattern == RAMP) film.height = film.noise = 0;
    for (uint32_t n = 0; n < BLOCK * a * d; n++) {
        uint32_t block = n / BLOCK, q = n % BLOCK, x = block % a * 8 + q % 8, y = block / a * 8 + q / 8;
        if (pattern == ANY) samples[n] = any(LOWEST, HIGHEST);
        else if (pattern == EXTREMES) samples[n] = any(0, 1) ? HIGHEST : LOWEST;
        else samples[n] = film_sample(&film, (int32_t)x, (int32_t)y);
    }
}

void make_extreme(int32_t *samples, int p, int lowest) {
    for (int q = 0; q < BLOCK; q++) samples[q] = (T81_factor(p, q) > 0) != lowest ? HIGHEST : LOWEST;
}

/* Sets of elements. */

void share_out(int32_t *u, int32_t total) {
    int32_t shift = any(0, 7), whole = any(0, 1);
    for (int k = 0; k < 8; k++) {
        int32_t part = k == 7 || whole ? total : any(0, total);
        u[(k + shift) % 8] = any(0, 1) ? part : -part;
        total -= part;
    }
}

/* the signs are the digits of n + 1 in base 3 */
void share_equally(int32_t *u, int32_t total, int n) {
    static const int32_t signs[] = {0, 1, -1};
    int32_t left = 0;
    for (int k = 0, digits = n + 1; k < 8; k++, digits /= 3) {
        u[k] = signs[digits % 3];
        left += u[k] != 0;
    }
    for (int k = 0; k < 8; k++) {
        int32_t part = u[k] == 0 ? 0 : total / left--;
        u[k] *= part;
        total -= part;
    }
}

void make_set_at_limit(int32_t *set) {
    for (int p = 0; p < BLOCK; p++) share_out(set + 8 * p, MOST_MAGNITUDES);
}

void make_faulty_set(int32_t *set, int n) {
    int32_t samples[BLOCK];
    make_samples(samples, 1, 1, SMOOTH);
    second_forward(samples, BLOCK, set, SET);
    if (n == 1) set[64] += 1;
    if (n == 2) set[8 * 62] = MOST_MAGNITUDES + 1;
    if (n > 2) set[1] = set[300] = INT32_MIN;
    if (n > 3) set[256] += 1;
}

void make_set_above(int32_t *set, int n) {
    enum { HALF = MOST_MAGNITUDES / 2, EIGHTH = MOST_MAGNITUDES / 8 };
    static const int32_t above[WAYS_ABOVE][8] = {{MOST_MAGNITUDES + 1}, {-MOST_MAGNITUDES - 1},
        {EIGHTH, EIGHTH, -EIGHTH, EIGHTH, EIGHTH, -EIGHTH, EIGHTH, EIGHTH + 1}, {0, HALF, 0, 0, 0, 0, 1, -HALF}, {MOST_MAGNITUDES, -MOST_MAGNITUDES},
        {0, 0, 1 << 23, 0, -(1 << 23)}, {0, 0, 0, 0, 0, 0, 0, INT32_MIN}, {INT32_MIN, 1, 1, 1, 1, 1, 1, 1}, {INT32_MIN, INT32_MIN},
        {INT32_MAX, INT32_MAX, 2}, {1 << 30, 1 << 30, 1 << 30, 1 << 30}};
    int p = n % BLOCK, others = n / BLOCK % 3;
    make_faulty_set(set, others % 2);
    memcpy(set + 8 * p, above[n / BLOCK / 3], sizeof above[0]);
    for (; others > 0; others--) set[any(8 * p, SET - 1) / 8 * 8] = INT32_MIN;
}

/* Widths and buffers. */

uint32_t no_width(int n) {
    static const uint32_t large[] = {64 + 11, 64 + 20, 256 + 11, 256 + 26, 65536 + 20, 1u << 31 | 26, 1u << 31, UINT32_MAX - 11, UINT32_MAX};
    static const uint32_t instead[] = {1u << 24 | 11, 1u << 16 | 26, INT32_MAX};
    for (int w = 0; w < WIDTHS; w++)
        if ((uint32_t)n == widths[w]) return instead[w];
    return n < 64 ? (uint32_t)n : large[n - 64];
}

void make_lengths(size_t full, size_t *lengths) {
    size_t all[LENGTHS] = {0, 1, full - 1, full, full + 1, full + 256, 4096, full + 65536, LONGEST};
    memcpy(lengths, all, sizeof all);
}

void fill(Pair *pair, const char *name, const void *numbers, size_t given, size_t length) {
    size_t whole = GUARD + length + GUARD;
    pair->name = name;
    pair->length = length;
    memcpy(pair->library, pool + any(0, (int32_t)(COUNT(pool) - whole)), whole * sizeof pool[0]);
    if (given > 0) memcpy(pair->library + GUARD, numbers, (given < length ? given : length) * sizeof pool[0]);
    memcpy(pair->second, pair->library, whole * sizeof pool[0]);
}

void compare(const Pair *pair, const char *job) {
    size_t whole = GUARD + pair->length + GUARD, n = 0;
    if (memcmp(pair->library, pair->second, whole * sizeof pool[0]) == 0) return;
    while (pair->library[n] == pair->second[n]) n++;
    expect(0, "%s leaves %s of length %zu, at index %lld, as %d, expected is %d", job, pair->name, pair->length, (long long)n - GUARD,
           (int)pair->library[n], (int)pair->second[n]);
}

int32_t *huge_buffer(void) {
    size_t writable = 1 << 16;
    void *buffer = mmap(NULL, (ABOVE_32_BITS + LONGEST) * sizeof pool[0], PROT_READ, MAP_PRIVATE | MAP_ANONYMOUS | MAP_NORESERVE, -1, 0);
    expect(buffer != MAP_FAILED && mprotect(buffer, writable, PROT_READ | PROT_WRITE) == 0, "no room for lengths above 32 bits");
    return buffer;
}
