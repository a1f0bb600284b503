/* Holds forward, back and rounding of the library to the second program, call by call: the answer, and every buffer with the guard numbers about it.
 * The elements are besides held to T.81's DCT values, and the coefficients to the distance of rounding from half of the elements' values. */
#include "weld_dct.h"
#include "cases.h"
#include <math.h>
#include <stdio.h>
#include <stdlib.h>
#include <string.h>

enum { FORWARD, BACK, ROUND, JOBS };

static const char *const jobs[JOBS] = {"forward", "back", "round"};
static int answered[JOBS][ANSWERS];
static Pair given, left; /* the buffers of the last call: the one that is read, and the one that is written */
static const int32_t *const came = left.library + GUARD;
static int32_t elements[SET]; /* the library's, of the last block */

static Answer settle(int job, Answer wanted, struct weld_dct_answer answer) {
    expect_answer(jobs[job], wanted, answer.number, answer.place);
    compare(&given, jobs[job]);
    compare(&left, jobs[job]);
    answered[job][wanted.number]++;
    return wanted;
}

static Answer check_forward(const int32_t *samples, size_t n, size_t m) {
    fill(&given, "samples", samples, BLOCK, n);
    fill(&left, "elements", NULL, 0, m);
    Answer wanted = second_forward(given.second + GUARD, n, left.second + GUARD, m);
    return settle(FORWARD, wanted, weld_dct_forward(given.library + GUARD, n, left.library + GUARD, m));
}

static Answer check_back(const int32_t *set, size_t n, size_t m) {
    fill(&given, "elements", set, SET, n);
    fill(&left, "samples", NULL, 0, m);
    Answer wanted = second_back(given.second + GUARD, n, left.second + GUARD, m);
    return settle(BACK, wanted, weld_dct_back(given.library + GUARD, n, left.library + GUARD, m));
}

static Answer check_round(const int32_t *set, size_t n, uint32_t b, size_t m) {
    fill(&given, "elements", set, SET, n);
    fill(&left, "coefficients", NULL, 0, m);
    Answer wanted = second_round(given.second + GUARD, n, b, left.second + GUARD, m);
    settle(ROUND, wanted, weld_dct_round(given.library + GUARD, n, b, left.library + GUARD, m));
    for (int p = 0; wanted.number == ACCEPTED && p < BLOCK; p++)
        expect(within_distance(came[p], element_value(set + 8 * p) / 2, b), "at b = %u the coefficient %d at %d is too far from half of the value",
               (unsigned)b, (int)came[p], p);
    return wanted;
}

/* the number of the answer, of calls with the lengths that are asked for */
static uint32_t forward_number(const int32_t *samples) { return check_forward(samples, BLOCK, SET).number; }
static uint32_t back_number(const int32_t *set) { return check_back(set, SET, BLOCK).number; }
static uint32_t round_number(const int32_t *set, uint32_t b) { return check_round(set, SET, b, BLOCK).number; }

static void make_set(const int32_t *samples, int32_t *set) {
    expect(forward_number(samples) == ACCEPTED, "forward refuses a block in range");
    memcpy(set, came, SET * sizeof set[0]);
}

/* an accepted set is rounded; with all components negated it is accepted, and all coefficients are negated */
static void check_opposite(const int32_t *set, uint32_t b) {
    int32_t negated[SET], coefficients[BLOCK];
    for (int n = 0; n < SET; n++) negated[n] = -set[n];
    expect(round_number(negated, b) == ACCEPTED, "round refuses an accepted set with all components negated");
    memcpy(coefficients, came, sizeof coefficients);
    expect(round_number(set, b) == ACCEPTED, "round refuses an accepted set");
    for (int p = 0; p < BLOCK; p++)
        expect(came[p] == -coefficients[p], "at b = %u the coefficients at %d are %d and %d", (unsigned)b, p, (int)came[p], (int)coefficients[p]);
}

static void round_at_all(const int32_t *set) {
    for (int w = 0; w < WIDTHS; w++) check_opposite(set, widths[w]);
}

/* forward, T.81's values, rounding at each width, and the way back */
static void check_block(const int32_t *samples) {
    make_set(samples, elements);
    for (int p = 0; p < BLOCK; p++)
        expect(fabsl(element_value(elements + 8 * p) - 16 * T81(samples, p)) < 1e-9L, "the element at %d is not sixteen times T.81's DCT value", p);
    round_at_all(elements);
    expect(back_number(elements) == ACCEPTED, "back refuses a block's set");
    expect(memcmp(came, samples, BLOCK * sizeof samples[0]) == 0, "a block's set goes back to another block");
}

/* 01's worked examples, as changed by requests 3 and 6, with the numbers that stand there, and others about the limits of request 6. */

static void example_of_one_level(int32_t sample, int32_t u_0, int32_t coefficient) {
    int32_t samples[BLOCK], others = 0;
    begin("example of all %d", (int)sample);
    for (int q = 0; q < BLOCK; q++) samples[q] = sample;
    check_block(samples);
    for (int n = 1; n < SET; n++) others += elements[n] != 0;
    expect(elements[0] == u_0 && others == 0, "u_0 is %d, and %d other components are not 0", (int)elements[0], (int)others);
    for (int w = 0; w < WIDTHS; w++) {
        round_number(elements, widths[w]);
        expect(came[0] == coefficient, "the coefficient is %d, expected is %d", (int)came[0], (int)coefficient);
    }
}

static void example_of_one_sample(void) {
    static const struct { int p; int32_t u[8]; } expected[] = {{0, {2}}, {1, {0, 0, 0, 1, 0, 1}}, {9, {2, 0, 1}}, {15, {0, 0, 0, 0, 0, 0, 1}}};
    int32_t samples[BLOCK] = {1};
    begin("example of one sample, 1");
    check_block(samples);
    for (size_t n = 0; n < COUNT(expected); n++)
        expect(memcmp(elements + 8 * expected[n].p, expected[n].u, sizeof expected[n].u) == 0, "the element at %d is another", expected[n].p);
    round_number(elements, 11);
    expect(came[1] == 1 && came[9] == 2 && came[63] == 0, "the coefficients are %d, %d, %d", (int)came[1], (int)came[9], (int)came[63]);
}

/* a sample at index 7, and the others 0 */
static void example_of_range(int32_t sample, uint32_t number) {
    int32_t samples[BLOCK] = {0};
    begin("example of the sample %d", (int)sample);
    samples[7] = sample;
    Answer answer = check_forward(samples, BLOCK, SET);
    expect(answer.number == number && answer.place == (number == 0 ? 0 : 7), "forward answers %u at %zu", (unsigned)answer.number, answer.place);
    if (number == 0) check_block(samples);
}

/* one component alone, at (0,0): what round answers at b, and the coefficient of an accepted one */
static void example_of_round(int k, int32_t component, uint32_t b, uint32_t number, int32_t coefficient) {
    int32_t set[SET] = {0};
    begin("example of u_%d = %d, b = %u", k, (int)component, (unsigned)b);
    set[k] = component;
    uint32_t answer = round_number(set, b);
    expect(answer == number, "round answers %u", (unsigned)answer);
    expect(number != 0 || came[0] == coefficient, "the coefficient is %d, expected is %d", (int)came[0], (int)coefficient);
}

/* one component alone, at (0,0): what back answers, and of an accepted one the sample that is everywhere */
static void example_of_back(int k, int32_t component, uint32_t number, int32_t sample) {
    int32_t set[SET] = {0};
    begin("example of u_%d = %d, back", k, (int)component);
    set[k] = component;
    uint32_t answer = back_number(set);
    expect(answer == number, "back answers %u", (unsigned)answer);
    for (int q = 0; number == 0 && q < BLOCK; q++) expect(came[q] == sample, "the sample at %d is %d, expected is %d", q, (int)came[q], (int)sample);
}

/* u_0 alone, which every width rounds alike: about the limits that 01 had before request 6, and about those that it has now */
static void examples_of_u_0(void) {
    static const struct { int32_t u_0; uint32_t rounded; int32_t coefficient; uint32_t back; int32_t sample; } examples[] = {{1, 0, 1, 5, 0},
        {262144, 0, 131072, 0, 2048}, {-262144, 0, -131072, 0, -2048}, {262145, 0, 131073, 5, 0}, {-262145, 0, -131073, 5, 0},
        {4194176, 0, 2097088, 0, 32767}, {4194304, 0, 2097152, 5, 0}, {-4194304, 0, -2097152, 0, -32768}, {4194305, 4, 0, 4, 0},
        {-4194305, 4, 0, 4, 0}};
    for (size_t n = 0; n < COUNT(examples); n++) {
        for (int w = 0; w < WIDTHS; w++) example_of_round(0, examples[n].u_0, widths[w], examples[n].rounded, examples[n].coefficient);
        example_of_back(0, examples[n].u_0, examples[n].back, examples[n].sample);
    }
}

/* u_1 alone at the limit: the largest coefficients of accepted sets */
static void examples_of_u_1(void) {
    static const int32_t coefficients[WIDTHS] = {4113408, 4113712, 4113712};
    for (int w = 0; w < WIDTHS; w++) {
        example_of_round(1, 4194304, widths[w], 0, coefficients[w]);
        example_of_round(1, -4194304, widths[w], 0, -coefficients[w]);
    }
    example_of_back(1, 4194304, 5, 0);
}

static void worked_examples(void) {
    example_of_one_level(1, 128, 64);
    example_of_one_level(-2048, -262144, -131072);
    example_of_one_level(2047, 262016, 131008);
    example_of_one_level(-32768, -4194304, -2097152);
    example_of_one_level(32767, 4194176, 2097088);
    example_of_one_sample();
    example_of_round(2, 256, 11, 0, 237);
    example_of_round(2, -256, 11, 0, -237);
    example_of_back(2, 256, 5, 0);
    example_of_back(2, -256, 5, 0);
    examples_of_u_0();
    examples_of_u_1();
    example_of_range(2048, 0);
    example_of_range(-2049, 0);
    example_of_range(32767, 0);
    example_of_range(-32768, 0);
    example_of_range(32768, 2);
    example_of_range(-32769, 2);
}

/* Blocks. */

/* The highest and the lowest coefficient at each place; at (0,0), (0,7), (7,0) and (7,7) these are blocks of one level, stripes and checkerboards. */
static void extremes(void) {
    int32_t samples[BLOCK];
    for (int n = 0; n < 2 * BLOCK; n++) {
        begin("the %s coefficient at %d", n % 2 ? "lowest" : "highest", n / 2);
        make_extreme(samples, n / 2, n % 2);
        check_block(samples);
    }
}

/* the ends of the range, and numbers that have another value in 12, 13, 14 or 15 bits, each at every place */
static void impulses(void) {
    static const int32_t heights[] = {1, -1, 2047, -2048, 2048, -2049, 4096, -4097, 8192, -8193, 16384, -16385, HIGHEST, LOWEST};
    int32_t samples[BLOCK] = {0};
    for (size_t n = 0; n < COUNT(heights) * BLOCK; n++) {
        size_t q = n / COUNT(heights);
        begin("%d alone at %zu", (int)heights[n % COUNT(heights)], q);
        samples[q] = heights[n % COUNT(heights)];
        check_block(samples);
        samples[q] = 0;
    }
}

/* across, down and along the diagonal, up from the lowest sample and down from the highest */
static void ramps(void) {
    static const int32_t slopes[] = {1, 2, 3, 16, 37, 128, 255, 292, 4095, (HIGHEST - LOWEST) / 14};
    int32_t samples[BLOCK];
    for (size_t n = 0; n < COUNT(slopes) * 6; n++) {
        int32_t slope = slopes[n / 6];
        int x = n % 3 != 1, y = n % 3 != 0, falls = n % 6 > 2;
        begin("ramp of %d, %d across, %d down, %s", (int)slope, x, y, falls ? "falling" : "rising");
        for (int q = 0; q < BLOCK; q++) {
            int32_t height = slope * (x * (q % 8) + y * (q / 8));
            samples[q] = falls ? HIGHEST - height : LOWEST + height;
        }
        check_block(samples);
    }
}

static void random_blocks(void) {
    int32_t samples[BLOCK];
    for (int n = 0; n < 8000; n++) {
        begin("random block %d of pattern %d", n, n % PATTERNS);
        make_samples(samples, 1, 1, (enum pattern)(n % PATTERNS));
        check_block(samples);
    }
}

/* Sets on the way back. */

/* one unit away from a block's set, at each of the 512 numbers, up and down */
static void units_away(void) {
    int32_t samples[BLOCK], set[SET];
    for (int n = 0; n < 8; n++) {
        if (n < 4) make_samples(samples, 1, 1, (enum pattern)n);
        else make_extreme(samples, n < 6 ? 0 : 63, n % 2);
        make_set(samples, set);
        for (int k = 0; k < 2 * SET; k++) {
            int32_t unit = k % 2 ? 1 : -1;
            begin("set %d, %d away at %d", n, (int)unit, k / 2);
            set[k / 2] += unit;
            expect(back_number(set) != ACCEPTED, "a set one unit away from a block's goes back");
            set[k / 2] -= unit;
        }
    }
}

/* the sum of two blocks' sets is the set of the sum of the blocks, which may be out of range by a little */
static void sums_of_sets(void) {
    int32_t samples[BLOCK], others[BLOCK], set[SET], added[SET];
    int by_answer[ANSWERS] = {0};
    for (int n = 0; n < 4000; n++) {
        begin("sum %d of two sets", n);
        for (int q = 0; q < BLOCK; q++) {
            samples[q] = any(LOWEST / 2, HIGHEST / 2 + (n % 2 ? 0 : 32));
            others[q] = n % 4 < 2 ? samples[q] : any(LOWEST / 2, HIGHEST / 2);
        }
        make_set(samples, set);
        make_set(others, added);
        for (int k = 0; k < SET; k++) set[k] += added[k];
        by_answer[back_number(set)]++;
    }
    expect(by_answer[ACCEPTED] > 0 && by_answer[NO_BLOCK] > 0, "the sums are all accepted or all refused");
}

/* the set of a block with one sample out of range by one, at each place and at both ends */
static void just_out_of_range(void) {
    int32_t samples[BLOCK], unit[BLOCK] = {0}, set[SET], added[SET];
    for (int n = 0; n < 4 * BLOCK; n++) {
        int q = n / 4;
        begin("the sample at %d is out of range by one", q);
        make_samples(samples, 1, 1, n % 4 < 2 ? ANY : SMOOTH);
        samples[q] = n % 2 ? HIGHEST : LOWEST;
        unit[q] = n % 2 ? 1 : -1;
        make_set(samples, set);
        make_set(unit, added);
        for (int k = 0; k < SET; k++) set[k] += added[k];
        expect(back_number(set) == NO_BLOCK, "a block out of range goes back");
        unit[q] = 0;
    }
}

/* one sample alone that is out of range: its set is so many times that of 1 */
static void far_out_of_range(void) {
    static const int32_t heights[] = {HIGHEST + 1, LOWEST - 1, 65536 + 5, -65536 + 5, 1 << 20};
    int32_t set[SET];
    for (size_t n = 0; n < COUNT(heights) * BLOCK; n++) {
        int32_t samples[BLOCK] = {0}, height = heights[n % COUNT(heights)];
        samples[n / COUNT(heights)] = 1;
        begin("the set of %d alone at %zu", (int)height, n / COUNT(heights));
        make_set(samples, set);
        for (int k = 0; k < SET; k++) set[k] *= height;
        expect(back_number(set) == NO_BLOCK, "a block out of range goes back");
        round_at_all(set);
    }
}

/* one component alone; 128 at (0,0), (0,4), (4,0) and (4,4) is a block's */
static void single_components(void) {
    static const int32_t numbers[] = {1, -1, 2, 64, 128, -128, 192, 256, 262016, 262144, -262144, 262145, -262145, MOST_MAGNITUDES - 128,
        MOST_MAGNITUDES, -MOST_MAGNITUDES, MOST_MAGNITUDES + 1, -MOST_MAGNITUDES - 1, 1 << 23, INT32_MAX, -INT32_MAX, INT32_MIN};
    int32_t set[SET] = {0};
    for (size_t n = 0; n < COUNT(numbers) * SET; n++) {
        size_t k = n / COUNT(numbers);
        set[k] = numbers[n % COUNT(numbers)];
        begin("%d alone at number %zu", (int)set[k], k);
        uint32_t number = back_number(set);
        if (number == BAD_MAGNITUDES) expect(round_number(set, widths[k % WIDTHS]) == number, "round takes what is above the limit");
        else round_at_all(set);
        set[k] = 0;
    }
}

/* a set that is above the limit for the first time at p */
static void check_above(const int32_t *set, size_t p, uint32_t b) {
    Answer answer = check_back(set, SET, BLOCK), rounded = check_round(set, SET, b, BLOCK);
    expect(answer.number == BAD_MAGNITUDES && answer.place == p, "the second program answers %u at %zu", (unsigned)answer.number, answer.place);
    expect(rounded.number == BAD_MAGNITUDES && rounded.place == p, "round is not refused as back is");
}

/* elements at the limit, in every way to share it, 64 in a set; and one element above it by one, in each way */
static void ways_to_share(void) {
    int32_t set[SET];
    for (int first = 0; first < WAYS_TO_SHARE; first += BLOCK) {
        begin("elements at the limit, in the ways from %d on", first);
        for (int p = 0; p < BLOCK; p++) share_equally(set + 8 * p, MOST_MAGNITUDES, (first + p) % WAYS_TO_SHARE);
        round_at_all(set);
        expect(back_number(set) == NO_BLOCK, "a set that is no block's goes back");
    }
    for (int n = 0; n < WAYS_TO_SHARE; n++) {
        begin("an element above the limit by one, way %d", n);
        make_faulty_set(set, n % 2);
        share_equally(set + 8 * (n % BLOCK), MOST_MAGNITUDES + 1, n);
        check_above(set, (size_t)n % BLOCK, widths[n % WIDTHS]);
    }
}

/* sets that are no block's, with every element at the limit; and one element above it by one */
static void sets_at_the_limit(void) {
    int32_t set[SET];
    for (int n = 0; n < 640; n++) {
        begin("set %d at the limit", n);
        make_set_at_limit(set);
        round_at_all(set);
        expect(back_number(set) == NO_BLOCK, "a set that is no block's goes back");
        begin("set %d above the limit by one at %d", n, n % BLOCK);
        share_out(set + 8 * (n % BLOCK), MOST_MAGNITUDES + 1);
        check_above(set, (size_t)n % BLOCK, widths[n % WIDTHS]);
    }
}

/* Halves. */

/* the number whose product with an odd m is 1 more than a multiple of 2^64 */
static uint64_t inverse(uint64_t m) {
    uint64_t x = 1;
    for (int n = 0; n < 6; n++) x *= 2 - m * x;
    return x;
}

/* an accepted element of any components whose N is a half, 2^b more than a multiple of 2^(b+1), or below one by so many */
static void make_half(int32_t *u, uint32_t b, int64_t by) {
    int64_t one = (int64_t)2 << b, fitting;
    int32_t most = MOST_MAGNITUDES / 16;
    int k = 1;
    while (table_number(k, b) % 2 == 0) k++;
    do {
        for (int n = 0; n < 8; n++) u[n] = any(-most, most);
        u[k] = 0;
        fitting = (int64_t)(inverse((uint64_t)table_number(k, b)) * (uint64_t)(one / 2 - by - table_sum(u, b)) % (uint64_t)one);
        if (fitting >= one / 2) fitting -= one;
    } while (llabs(fitting) > MOST_MAGNITUDES - 7 * most);
    u[k] = (int32_t)fitting;
}

/* how far below a half N is at the place p of the set n: 1, 0 or -1 */
static int below_half(int p, int n) { return 1 - (p + n / WIDTHS) % 3; }

/* A half goes away from zero, at every place; what is one below it goes down, and what is one above it up. Blocks at random hardly ever
 * come near at 20 and 26. */
static void halves(void) {
    int32_t set[SET];
    int above[WIDTHS] = {0}, below[WIDTHS] = {0};
    for (int n = 0; n < WIDTHS * 100; n++) {
        uint32_t b = widths[n % WIDTHS];
        int64_t half = (int64_t)1 << b;
        begin("halves, set %d, b = %u", n, (unsigned)b);
        for (int p = 0; p < BLOCK; p++) make_half(set + 8 * p, b, below_half(p, n));
        check_opposite(set, b);
        for (int p = 0; p < BLOCK; p++) {
            int by = below_half(p, n);
            int64_t N = table_sum(set + 8 * p, b), up = 2 * half * came[p] - N, wanted[] = {half - 1, N > 0 ? half : -half, 1 - half};
            expect(up == wanted[1 + by], "N = %lld, %d below a half, is rounded by %lld at %d", (long long)N, by, (long long)up, p);
            above[n % WIDTHS] += by == 0 && N > 0;
            below[n % WIDTHS] += by == 0 && N < 0;
        }
    }
    for (int w = 0; w < WIDTHS; w++) expect(above[w] > 0 && below[w] > 0, "%d halves are above 0, and %d below", above[w], below[w]);
}

/* Refusals. */

/* every pair of lengths, with contents that are refused for other causes: length comes first */
static void forward_lengths(void) {
    static const int faults[][2] = {{-1, -1}, {0, 0}, {0, 63}, {62, 62}, {17, 40}};
    size_t of_samples[LENGTHS], of_elements[LENGTHS];
    make_lengths(BLOCK, of_samples);
    make_lengths(SET, of_elements);
    for (size_t n = 0; n < LENGTHS * LENGTHS * COUNT(faults); n++) {
        const int *at = faults[n % COUNT(faults)];
        int32_t samples[BLOCK] = {0};
        if (at[0] >= 0) samples[at[0]] = HIGHEST + 1;
        if (at[0] >= 0) samples[at[1]] = LOWEST - 1;
        size_t i = of_samples[n / COUNT(faults) % LENGTHS], j = of_elements[n / COUNT(faults) / LENGTHS];
        begin("lengths %zu and %zu, samples out of range at %d and %d", i, j, at[0], at[1]);
        check_forward(samples, i, j);
    }
}

static void back_and_round_lengths(void) {
    static const uint32_t bs[] = {11, 20, 26, 0, 12, UINT32_MAX};
    size_t of_block[LENGTHS], of_set[LENGTHS];
    int32_t set[SET];
    make_lengths(BLOCK, of_block);
    make_lengths(SET, of_set);
    for (size_t n = 0; n < LENGTHS * LENGTHS * FAULTY_SETS; n++) {
        size_t i = of_set[n / FAULTY_SETS % LENGTHS], j = of_block[n / FAULTY_SETS / LENGTHS];
        make_faulty_set(set, n % FAULTY_SETS);
        begin("lengths %zu and %zu, faulty set %d", i, j, (int)n % FAULTY_SETS);
        check_back(set, i, j);
        for (size_t m = 0; m < COUNT(bs); m++) {
            begin("lengths %zu and %zu, faulty set %d, b = %u", i, j, (int)n % FAULTY_SETS, (unsigned)bs[m]);
            check_round(set, i, bs[m], j);
        }
    }
}

/* lengths that are right again in 32 bits: the whole length counts, and no buffer is written */
static void lengths_above_32_bits(void) {
    static const int32_t zeros[SET];
    int32_t *huge = huge_buffer(), block[BLOCK] = {0}, set[SET] = {0};
    size_t of_block = ABOVE_32_BITS + BLOCK, of_set = ABOVE_32_BITS + SET;
    Answer wanted = {BAD_LENGTH, 0};
    struct weld_dct_answer answers[] = {weld_dct_forward(huge, of_block, set, SET), weld_dct_forward(block, BLOCK, huge, of_set),
        weld_dct_back(huge, of_set, block, BLOCK), weld_dct_back(set, SET, huge, of_block), weld_dct_round(huge, of_set, 11, block, BLOCK),
        weld_dct_round(set, SET, 11, huge, of_block)};
    begin("a length above 32 bits");
    for (size_t n = 0; n < COUNT(answers); n++) expect_answer(jobs[n / 2], wanted, answers[n].number, answers[n].place);
    expect(memcmp(block, zeros, sizeof block) == 0 && memcmp(set, zeros, sizeof set) == 0 && memcmp(huge, zeros, sizeof zeros) == 0,
           "a refused call writes into a buffer");
}

/* a sample out of range at each place, alone and with others behind it: the lowest index is named; some are near 0 again in 16 bits */
static void samples_out_of_range(void) {
    static const int32_t out[] = {HIGHEST + 1, LOWEST - 1, 2 * HIGHEST + 1, 2 * LOWEST, 65536 + 5, -65536 + 5, 1 << 24, INT32_MAX, INT32_MIN};
    int32_t samples[BLOCK];
    for (int n = 0; n < (int)COUNT(out) * 4 * BLOCK; n++) {
        int q = n % BLOCK, others = n / BLOCK % 4;
        make_samples(samples, 1, 1, (enum pattern)(n / BLOCK % PATTERNS));
        samples[q] = out[n / BLOCK / 4];
        for (; others > 0; others--) samples[any(q, BLOCK - 1)] = out[(n + others) % (int)COUNT(out)];
        begin("%d at %d", (int)samples[q], q);
        Answer answer = check_forward(samples, BLOCK, SET);
        expect(answer.number == BAD_SAMPLE && answer.place == (size_t)q, "the second program has another answer");
    }
}

/* an element above the limit at each place: the lowest number is named */
static void magnitudes_above_the_limit(void) {
    int32_t set[SET];
    for (int n = 0; n < SETS_ABOVE; n++) {
        size_t p = (size_t)n % BLOCK;
        make_set_above(set, n);
        begin("element %zu is above the limit, set %d", p, n);
        check_above(set, p, widths[n % WIDTHS]);
    }
}

/* every b that is no width, of sets that are accepted and of others: the width comes first */
static void no_widths(void) {
    int32_t set[SET];
    for (int n = 0; n < NO_WIDTHS * FAULTY_SETS; n++) {
        make_faulty_set(set, n % FAULTY_SETS);
        begin("b = %u, faulty set %d", (unsigned)no_width(n / FAULTY_SETS), n % FAULTY_SETS);
        expect(round_number(set, no_width(n / FAULTY_SETS)) == BAD_WIDTH, "the second program has another answer");
    }
}

/* prints how many calls there were; every answer that a job has must have come */
static void report(void) {
    static const uint32_t of_job[JOBS][4] = {{ACCEPTED, BAD_LENGTH, BAD_SAMPLE}, {ACCEPTED, BAD_LENGTH, BAD_MAGNITUDES, NO_BLOCK},
        {ACCEPTED, BAD_LENGTH, BAD_WIDTH, BAD_MAGNITUDES}};
    int calls[JOBS] = {0};
    begin("end");
    for (int job = 0; job < JOBS; job++) {
        for (int n = 0; n < ANSWERS; n++) calls[job] += answered[job][n];
        for (int n = 0; n < 4; n++) expect(answered[job][of_job[job][n]] > 0, "%s never answered %u", jobs[job], (unsigned)of_job[job][n]);
    }
    printf("blocks: %d calls of forward (%d accepted), %d of back (%d) and %d of round (%d) as 01 and T.81's formula have them; seed %llu\n",
           calls[FORWARD], answered[FORWARD][ACCEPTED], calls[BACK], answered[BACK][ACCEPTED], calls[ROUND], answered[ROUND][ACCEPTED],
           (unsigned long long)seed);
}

int main(void) {
    start("blocks");
    worked_examples();
    extremes();
    impulses();
    ramps();
    random_blocks();
    units_away();
    sums_of_sets();
    just_out_of_range();
    far_out_of_range();
    single_components();
    ways_to_share();
    sets_at_the_limit();
    halves();
    forward_lengths();
    back_and_round_lengths();
    lengths_above_32_bits();
    samples_out_of_range();
    magnitudes_above_the_limit();
    no_widths();
    report();
    return 0;
}
