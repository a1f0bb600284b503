/* What the tests share: the report of a disagreement, numbers at random, samples, sets of elements, and buffers between guard numbers. */
#ifndef CASES_H
#define CASES_H

#include "second.h"

#define COUNT(array) (sizeof(array) / sizeof(array)[0])
#define FORMAT(string, first) __attribute__((format(printf, string, first)))

/* What the numbers at random begin with; every run has the same. */
extern const uint64_t seed;

/* Begins a test; begins a case of it. The first thing that does not hold is printed under both names, and ends the test with 1. */
void start(const char *test);
void begin(const char *format, ...) FORMAT(1, 2);
void expect(int holds, const char *format, ...) FORMAT(2, 3);
void expect_answer(const char *job, Answer wanted, uint32_t number, size_t place);

/* A number from low to high. */
int32_t any(int32_t low, int32_t high);

/* The samples of a by d blocks, in the order of a sheet. A ramp is a slope; a smooth film is a bead over a slope, with a little noise. Both use 12 to
 * 16 bits. */
enum pattern { ANY, EXTREMES, RAMP, SMOOTH, PATTERNS };
void make_samples(int32_t *samples, uint32_t a, uint32_t d, enum pattern pattern);

/* The block whose coefficient at p is the highest of all, or the lowest. */
void make_extreme(int32_t *samples, int p, int lowest);

/* The numbers of one element, with magnitudes that sum to the total: shared out at random; or as equal as they can be, for each n below WAYS_TO_SHARE
 * with other signs, every component above 0, below 0 or 0, but not all 0. */
enum { WAYS_TO_SHARE = 6560 }; /* 3^8 - 1 */
void share_out(int32_t *u, int32_t total);
void share_equally(int32_t *u, int32_t total, int n);

/* A set with every element at the limit, shared out at random. */
void make_set_at_limit(int32_t *set);

/* A set with causes of its own, for each n below FAULTY_SETS: none, no block's, above the limit at one place or at two. */
enum { FAULTY_SETS = 5 };
void make_faulty_set(int32_t *set, int n);

/* A set whose first element above the limit is n % BLOCK, for each n below SETS_ABOVE: alone and with others behind it; among the sums are some
 * that are small again in 23, 24 or 32 bits. */
enum { WAYS_ABOVE = 11, SETS_ABOVE = WAYS_ABOVE * 3 * BLOCK };
void make_set_above(int32_t *set, int n);

/* A b that is no width, for each n below NO_WIDTHS: every such b below 64, and large ones, among them some that are a width in fewer bits. */
enum { NO_WIDTHS = 73 };
uint32_t no_width(int n);

/* One buffer of a call, for the library and for the second program, each between guard numbers; both begin with the same numbers. GUARD is odd, so
 * that a buffer has the alignment of its numbers and no higher one. */
enum { GUARD = 17, LONGEST = 100000 };
typedef struct {
    const char *name;
    size_t length;
    int32_t library[GUARD + LONGEST + GUARD], second[GUARD + LONGEST + GUARD];
} Pair;

/* Lengths: none, one, about the right one, right again in 8 or 16 bits, and far longer. */
enum { LENGTHS = 9 };
void make_lengths(size_t full, size_t *lengths);

/* The first of the given numbers, and numbers at random beyond them. */
void fill(Pair *pair, const char *name, const void *numbers, size_t given, size_t length);
void compare(const Pair *pair, const char *job);

/* A buffer of 2^32 + LONGEST numbers, of which the first 16,384 can be written. It is for lengths that are right again in 32 bits. */
#define ABOVE_32_BITS ((size_t)1 << 32)
int32_t *huge_buffer(void);

#endif
