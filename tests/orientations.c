/* Holds reorient and the composition of orientations to the second program, call by call: the answer, and every buffer with the guard numbers about
 * it. A block's reoriented set is besides held to forward and back of the reoriented block, and every pair of orientations to the composed one. */
#include "weld_dct.h"
#include "cases.h"
#include <stdio.h>
#include <string.h>

enum { REORIENT, COMPOSE, JOBS };
enum { NO_ORIENTATIONS = 14 * ORIENTATIONS };

static const char *const jobs[JOBS] = {"reorient", "compose_orientations"};
static int answered[JOBS][ANSWERS];
static Pair given, left; /* the buffers of the last call: the one that is read, and the one that is written */
static const int32_t *const came = left.library + GUARD;

static Answer settle(int job, Answer wanted, struct weld_dct_answer answer) {
    expect_answer(jobs[job], wanted, answer.number, answer.place);
    answered[job][wanted.number]++;
    return wanted;
}

static Answer check_reorient(const int32_t *set, size_t n, uint32_t orientation, size_t m) {
    fill(&given, "elements", set, SET, n);
    fill(&left, "output", NULL, 0, m);
    Answer wanted = second_reorient(given.second + GUARD, n, orientation, left.second + GUARD, m);
    settle(REORIENT, wanted, weld_dct_reorient(given.library + GUARD, n, orientation, left.library + GUARD, m));
    compare(&given, jobs[REORIENT]);
    compare(&left, jobs[REORIENT]);
    return wanted;
}

static Answer check_compose(uint32_t first, uint32_t second) {
    return settle(COMPOSE, second_compose_orientations(first, second), weld_dct_compose_orientations(first, second));
}

static int same_set(const int32_t *one, const int32_t *other) { return memcmp(one, other, SET * sizeof one[0]) == 0; }

/* an accepted set in another orientation */
static void reorient(const int32_t *set, uint32_t orientation, int32_t *output) {
    Answer answer = check_reorient(set, SET, orientation, SET);
    expect(answer.number == ACCEPTED, "orientation %u of an accepted set is refused", (unsigned)orientation);
    memcpy(output, came, SET * sizeof output[0]);
}

/* a set that is above the limit for the first time at p, in every orientation */
static void check_above(const int32_t *set, size_t p) {
    for (uint32_t orientation = 0; orientation < ORIENTATIONS; orientation++) {
        Answer answer = check_reorient(set, SET, orientation, SET);
        expect(answer.number == BAD_MAGNITUDES && answer.place == p, "the second program has another answer");
    }
}

/* Blocks. */

static void make_set(const int32_t *samples, int32_t *set) {
    expect(weld_dct_forward(samples, BLOCK, set, SET).number == ACCEPTED, "forward refuses a block in range");
}

static void go_back(const int32_t *set, int32_t *samples) {
    expect(weld_dct_back(set, SET, samples, BLOCK).number == ACCEPTED, "back refuses a block's reoriented set");
}

/* in every orientation, the set is that of the reoriented block, and goes back to it */
static void check_block(const int32_t *samples) {
    int32_t set[SET], output[SET], reoriented[BLOCK], wanted[SET], again[BLOCK];
    make_set(samples, set);
    for (uint32_t orientation = 0; orientation < ORIENTATIONS; orientation++) {
        reorient(set, orientation, output);
        reorient_samples(samples, orientation, reoriented);
        make_set(reoriented, wanted);
        expect(same_set(output, wanted), "orientation %u does not give the set of the reoriented block", (unsigned)orientation);
        go_back(output, again);
        expect(memcmp(again, reoriented, sizeof again) == 0, "orientation %u goes back to another block", (unsigned)orientation);
    }
}

/* 02's words, by hand: the samples at the corners, in the order of the rows, of a block in which each sample is its index */
static void corners(void) {
    static const int32_t expected[ORIENTATIONS][4] = {{0, 7, 56, 63}, {7, 0, 63, 56}, {56, 63, 0, 7}, {63, 56, 7, 0}, {0, 56, 7, 63},
        {56, 0, 63, 7}, {7, 63, 0, 56}, {63, 7, 56, 0}};
    int32_t samples[BLOCK], set[SET], output[SET], again[BLOCK];
    for (int q = 0; q < BLOCK; q++) samples[q] = q;
    make_set(samples, set);
    for (uint32_t orientation = 0; orientation < ORIENTATIONS; orientation++) {
        begin("corners in orientation %u", (unsigned)orientation);
        reorient(set, orientation, output);
        go_back(output, again);
        for (int n = 0; n < 4; n++) {
            int32_t sample = again[n / 2 * 56 + n % 2 * 7], wanted = expected[orientation][n];
            expect(sample == wanted, "at corner %d is the sample of index %d, expected is %d", n, (int)sample, (int)wanted);
        }
    }
}

/* the highest and the lowest coefficient at each place */
static void extremes(void) {
    int32_t samples[BLOCK];
    for (int n = 0; n < 2 * BLOCK; n++) {
        begin("the %s coefficient at %d", n % 2 ? "lowest" : "highest", n / 2);
        make_extreme(samples, n / 2, n % 2);
        check_block(samples);
    }
}

static void impulses(void) {
    static const int32_t heights[] = {1, HIGHEST, LOWEST};
    int32_t samples[BLOCK] = {0};
    for (size_t n = 0; n < COUNT(heights) * BLOCK; n++) {
        size_t q = n / COUNT(heights);
        begin("%d alone at %zu", (int)heights[n % COUNT(heights)], q);
        samples[q] = heights[n % COUNT(heights)];
        check_block(samples);
        samples[q] = 0;
    }
}

static void random_blocks(void) {
    int32_t samples[BLOCK];
    for (int n = 0; n < 2000; n++) {
        begin("random block %d of pattern %d", n, n % PATTERNS);
        make_samples(samples, 1, 1, (enum pattern)(n % PATTERNS));
        check_block(samples);
    }
}

/* Accepted sets, of blocks and others. */

/* orientation 0 changes nothing; for every pair, one after the other gives what the composed one gives */
static void check_pairs(const int32_t *set) {
    int32_t by_one[ORIENTATIONS][SET], by_two[SET];
    for (uint32_t orientation = 0; orientation < ORIENTATIONS; orientation++) reorient(set, orientation, by_one[orientation]);
    expect(same_set(by_one[0], set), "orientation 0 changes the set");
    for (unsigned n = 0; n < ORIENTATIONS * ORIENTATIONS; n++) {
        unsigned first = n / ORIENTATIONS, second = n % ORIENTATIONS;
        struct weld_dct_answer composed = weld_dct_compose_orientations(first, second);
        expect(composed.number == ACCEPTED && composed.place < ORIENTATIONS, "orientations %u and %u are not composed", first, second);
        reorient(by_one[first], second, by_two);
        expect(same_set(by_two, by_one[composed.place]), "orientation %u followed by %u is not %zu", first, second, composed.place);
    }
}

static void pairs_on_blocks(void) {
    int32_t samples[BLOCK], set[SET];
    for (int n = 0; n < 200; n++) {
        begin("pairs on block %d of pattern %d", n, n % PATTERNS);
        make_samples(samples, 1, 1, (enum pattern)(n % PATTERNS));
        make_set(samples, set);
        check_pairs(set);
    }
}

/* sets that are no block's, with every element at the limit; and one element above it by one */
static void sets_at_the_limit(void) {
    int32_t set[SET];
    for (int n = 0; n < 4 * BLOCK; n++) {
        begin("pairs on set %d at the limit", n);
        make_set_at_limit(set);
        check_pairs(set);
        begin("set %d above the limit by one at %d", n, n % BLOCK);
        share_out(set + 8 * (n % BLOCK), MOST_MAGNITUDES + 1);
        check_above(set, (size_t)n % BLOCK);
    }
}

/* one component alone, which goes with its element: the swap exchanges u and v; left and right change the sign where v is odd, top and bottom where
 * u is */
static void check_component(int k, int32_t component) {
    for (uint32_t orientation = 0; orientation < ORIENTATIONS; orientation++) {
        int32_t set[SET] = {0}, output[SET], wanted[SET] = {0};
        int u = k / 64, v = k / 8 % 8, p = orientation < 4 ? 8 * u + v : 8 * v + u;
        int signs = (orientation & 1 ? p % 8 : 0) + (orientation & 2 ? p / 8 : 0);
        set[k] = component;
        wanted[8 * p + k % 8] = signs % 2 ? -component : component;
        reorient(set, orientation, output);
        expect(same_set(output, wanted), "orientation %u takes it elsewhere, or changes it", (unsigned)orientation);
    }
}

static void single_components(void) {
    static const int32_t within[] = {1, -1, 128, 262145, -262145, MOST_MAGNITUDES, -MOST_MAGNITUDES};
    static const int32_t above[] = {MOST_MAGNITUDES + 1, -MOST_MAGNITUDES - 1, 1 << 23, INT32_MAX, -INT32_MAX, INT32_MIN};
    for (int k = 0; k < SET; k++) {
        for (size_t n = 0; n < COUNT(within); n++) {
            begin("%d alone at number %d", (int)within[n], k);
            check_component(k, within[n]);
        }
        for (size_t n = 0; n < COUNT(above); n++) {
            int32_t set[SET] = {0};
            begin("%d alone at number %d", (int)above[n], k);
            set[k] = above[n];
            check_above(set, (size_t)k / 8);
        }
    }
}

/* Refusals. */

/* a number that is no orientation, for each n below NO_ORIENTATIONS; in 3 bits every one of them is, and in 8, 16, 24 or 31 some are */
static uint32_t no_orientation(uint32_t n) {
    static const uint32_t multiples[NO_ORIENTATIONS / ORIENTATIONS] = {8, 16, 24, 32, 64, 128, 248, 256, 65528, 65536, 1u << 24, INT32_MAX - 7,
        1u << 31, UINT32_MAX - 7};
    return multiples[n / ORIENTATIONS] + n % ORIENTATIONS;
}

/* every pair of lengths, with orientations and sets that are refused for other causes: length comes first */
static void lengths(void) {
    static const uint32_t orientations[] = {0, 3, 6, 8, 256, UINT32_MAX};
    size_t of_set[LENGTHS];
    int32_t set[SET];
    make_lengths(SET, of_set);
    for (size_t n = 0; n < LENGTHS * LENGTHS * FAULTY_SETS; n++) {
        size_t i = of_set[n / FAULTY_SETS % LENGTHS], j = of_set[n / FAULTY_SETS / LENGTHS];
        make_faulty_set(set, n % FAULTY_SETS);
        for (size_t k = 0; k < COUNT(orientations); k++) {
            begin("lengths %zu and %zu, orientation %u, faulty set %d", i, j, (unsigned)orientations[k], (int)n % FAULTY_SETS);
            Answer answer = check_reorient(set, i, orientations[k], j);
            expect((answer.number == BAD_LENGTH) == (i != SET || j != SET), "the second program has another answer");
        }
    }
}

/* lengths that are right again in 32 bits: the whole length counts, and no buffer is written */
static void lengths_above_32_bits(void) {
    static const int32_t zeros[SET];
    int32_t *huge = huge_buffer(), set[SET], output[SET] = {0};
    size_t many = ABOVE_32_BITS + SET;
    Answer wanted = {BAD_LENGTH, 0};
    begin("a length above 32 bits");
    for (int k = 0; k < SET; k++) set[k] = k + 1;
    struct weld_dct_answer long_output = weld_dct_reorient(set, SET, 5, huge, many);
    expect_answer(jobs[REORIENT], wanted, long_output.number, long_output.place);
    expect(same_set(huge, zeros), "a refused call writes into a buffer");
    memcpy(huge, set, sizeof set);
    struct weld_dct_answer long_set = weld_dct_reorient(huge, many, 5, output, SET);
    expect_answer(jobs[REORIENT], wanted, long_set.number, long_set.place);
    expect(same_set(output, zeros) && same_set(huge, set), "a refused call writes into a buffer");
}

/* every number that is no orientation, of sets that are accepted and of others: the orientation comes first */
static void no_orientations(void) {
    int32_t set[SET];
    for (uint32_t n = 0; n < NO_ORIENTATIONS * FAULTY_SETS; n++) {
        uint32_t orientation = no_orientation(n / FAULTY_SETS);
        make_faulty_set(set, n % FAULTY_SETS);
        begin("orientation %u, faulty set %u", (unsigned)orientation, (unsigned)n % FAULTY_SETS);
        Answer answer = check_reorient(set, SET, orientation, SET);
        expect(answer.number == BAD_ORIENTATION && answer.place == 0, "the second program has another answer");
    }
}

/* an element above the limit at each place: the lowest number is named */
static void magnitudes_above_the_limit(void) {
    int32_t set[SET];
    for (int n = 0; n < SETS_ABOVE; n++) {
        begin("element %d is above the limit, set %d", n % BLOCK, n);
        make_set_above(set, n);
        check_above(set, (size_t)n % BLOCK);
    }
}

/* Composition. */

static void check_composed(uint32_t first, uint32_t second, uint32_t number, size_t place) {
    begin("orientation %u followed by %u", (unsigned)first, (unsigned)second);
    Answer answer = check_compose(first, second);
    expect(answer.number == number && answer.place == place, "the second program answers %u at %zu", (unsigned)answer.number, answer.place);
}

/* 02's 8 by 8 table, written out: a row for each first orientation, and in it the second ones */
static void compositions(void) {
    static const size_t table[ORIENTATIONS][ORIENTATIONS] = {{0, 1, 2, 3, 4, 5, 6, 7}, {1, 0, 3, 2, 6, 7, 4, 5}, {2, 3, 0, 1, 5, 4, 7, 6},
        {3, 2, 1, 0, 7, 6, 5, 4}, {4, 5, 6, 7, 0, 1, 2, 3}, {5, 4, 7, 6, 2, 3, 0, 1}, {6, 7, 4, 5, 1, 0, 3, 2}, {7, 6, 5, 4, 3, 2, 1, 0}};
    for (uint32_t first = 0; first < ORIENTATIONS; first++)
        for (uint32_t second = 0; second < ORIENTATIONS; second++) check_composed(first, second, ACCEPTED, table[first][second]);
}

/* one or both are no orientations */
static void no_compositions(void) {
    for (uint32_t n = 0; n < NO_ORIENTATIONS; n++) {
        for (uint32_t m = 0; m < ORIENTATIONS; m++) {
            check_composed(no_orientation(n), m, BAD_ORIENTATION, 0);
            check_composed(m, no_orientation(n), BAD_ORIENTATION, 0);
        }
        for (uint32_t m = 0; m < NO_ORIENTATIONS; m++) check_composed(no_orientation(n), no_orientation(m), BAD_ORIENTATION, 0);
    }
}

/* prints how many calls there were; every answer that a job has must have come */
static void report(void) {
    static const uint32_t of_job[JOBS][4] = {{ACCEPTED, BAD_LENGTH, BAD_ORIENTATION, BAD_MAGNITUDES}, {ACCEPTED, BAD_ORIENTATION}};
    int calls[JOBS] = {0};
    begin("end");
    for (int job = 0; job < JOBS; job++) {
        for (int n = 0; n < ANSWERS; n++) calls[job] += answered[job][n];
        for (int n = 0; n < 4; n++) expect(answered[job][of_job[job][n]] > 0, "%s never answered %u", jobs[job], (unsigned)of_job[job][n]);
    }
    printf("orientations: %d calls of reorient (%d accepted) and %d of compose_orientations (%d) as 02 and T.81's formula have them; seed %llu\n",
           calls[REORIENT], answered[REORIENT][ACCEPTED], calls[COMPOSE], answered[COMPOSE][ACCEPTED], (unsigned long long)seed);
}

int main(void) {
    start("orientations");
    corners();
    extremes();
    impulses();
    random_blocks();
    pairs_on_blocks();
    sets_at_the_limit();
    single_components();
    lengths();
    lengths_above_32_bits();
    no_orientations();
    magnitudes_above_the_limit();
    compositions();
    no_compositions();
    report();
    return 0;
}
