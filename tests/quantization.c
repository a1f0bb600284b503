/* Holds quantize and dequantize to the second program, call by call: the answer, and every buffer with the guard numbers about it. What they leave is
 * besides held to 02's words, with T.81's Figure A.6 as it is printed: the nearest value, halves away from zero, the way back and its distance. */
#include "weld_dct.h"
#include "cases.h"
#include <stdio.h>
#include <stdlib.h>
#include <string.h>

enum { QUANTIZE, DEQUANTIZE, JOBS };

/* what each job is called, reads and writes */
static const struct {
    const char *name, *reads, *writes;
    struct weld_dct_answer (*library)(const int32_t *numbers, size_t n, const uint32_t *steps, size_t k, int32_t *made, size_t m);
    Answer (*second)(const int32_t *numbers, size_t n, const uint32_t *steps, size_t k, int32_t *made, size_t m);
} jobs[JOBS] = {{"quantize", "coefficients", "quantized", weld_dct_quantize, second_quantize},
    {"dequantize", "quantized", "coefficients", weld_dct_dequantize, second_dequantize}};

/* T.81's Figure A.6: the index in zig-zag order of each place, row by row */
static const int figure[BLOCK] = {
    0,  1,  5,  6,  14, 15, 27, 28,
    2,  4,  7,  13, 16, 26, 29, 42,
    3,  8,  12, 17, 25, 30, 41, 43,
    9,  11, 18, 24, 31, 40, 44, 53,
    10, 19, 23, 32, 39, 45, 52, 54,
    20, 22, 33, 38, 46, 51, 55, 60,
    21, 34, 37, 47, 50, 56, 59, 61,
    35, 36, 48, 49, 57, 58, 62, 63,
};

static int answered[JOBS][ANSWERS];
static Pair given, by, left; /* the buffers of the last call: the numbers and the steps, which are read, and the one that is written */
static const int32_t *const came = left.library + GUARD;

static Answer check_lengths(int job, const int32_t *numbers, size_t n, const uint32_t *steps, size_t k, size_t m) {
    const char *name = jobs[job].name;
    fill(&given, jobs[job].reads, numbers, BLOCK, n);
    fill(&by, "steps", steps, BLOCK, k);
    fill(&left, jobs[job].writes, NULL, 0, m);
    Answer wanted = jobs[job].second(given.second + GUARD, n, (uint32_t *)by.second + GUARD, k, left.second + GUARD, m);
    struct weld_dct_answer answer =
        jobs[job].library(given.library + GUARD, n, (uint32_t *)by.library + GUARD, k, left.library + GUARD, m);
    expect_answer(name, wanted, answer.number, answer.place);
    compare(&given, name);
    compare(&by, name);
    compare(&left, name);
    answered[job][wanted.number]++;
    return wanted;
}

static Answer check(int job, const int32_t *numbers, const uint32_t *steps) {
    return check_lengths(job, numbers, BLOCK, steps, BLOCK, BLOCK);
}

/* a call that has to be accepted, and what it leaves */
static void check_accepted(int job, const int32_t *numbers, const uint32_t *steps, int32_t *made) {
    expect(check(job, numbers, steps).number == ACCEPTED, "%s refuses what it has to accept", jobs[job].name);
    memcpy(made, came, BLOCK * sizeof made[0]);
}

static void check_refused(int job, const int32_t *numbers, const uint32_t *steps, uint32_t number, size_t place) {
    Answer answer = check(job, numbers, steps);
    expect(answer.number == number && answer.place == place, "the second program has another answer");
}

static int same(const int32_t *one, const int32_t *other) { return memcmp(one, other, BLOCK * sizeof one[0]) == 0; }

/* 02's words. */

/* the way back is the product with 8 × step, no further than 4 × step from the coefficient, and further from zero if it is as far as that */
static void check_way_back(const int32_t *coefficients, const uint32_t *steps, const int32_t *quantized, const int32_t *back) {
    for (int p = 0; p < BLOCK; p++) {
        int64_t step = steps[figure[p]], y = coefficients[p], z = back[p];
        expect(z == 8 * step * quantized[p], "%d at %d comes back as %d, by the step %d", (int)quantized[p], p, (int)z, (int)step);
        expect(llabs(y - z) <= 4 * step, "%d at %d is further than 4 × %d from its way back %d", (int)y, p, (int)step, (int)z);
        expect(llabs(y - z) < 4 * step || llabs(z) > llabs(y), "the half %d at %d goes to %d, towards zero", (int)y, p, (int)z);
    }
}

/* negated coefficients have negated values */
static void check_negated(const int32_t *coefficients, const uint32_t *steps, const int32_t *quantized) {
    int32_t negated[BLOCK], made[BLOCK];
    for (int p = 0; p < BLOCK; p++) negated[p] = -coefficients[p];
    check_accepted(QUANTIZE, negated, steps, made);
    for (int p = 0; p < BLOCK; p++)
        expect(made[p] == -quantized[p], "%d at %d becomes %d, and negated %d", (int)coefficients[p], p, (int)quantized[p], (int)made[p]);
}

/* what came back has the same values again, or is refused at the first place where it is beyond the limit */
static void check_again(const int32_t *back, const uint32_t *steps, const int32_t *quantized) {
    int32_t made[BLOCK];
    size_t first = 0;
    while (first < BLOCK && abs(back[first]) <= MOST_COEFFICIENT) first++;
    if (first < BLOCK) {
        check_refused(QUANTIZE, back, steps, BAD_COEFFICIENT, first);
        return;
    }
    check_accepted(QUANTIZE, back, steps, made);
    expect(same(made, quantized), "what came back has other values");
}

/* coefficients within the limit, there and back: the values, and what comes back */
static void check_both_ways(const int32_t *coefficients, const uint32_t *steps, int32_t *quantized, int32_t *back) {
    check_accepted(QUANTIZE, coefficients, steps, quantized);
    check_accepted(DEQUANTIZE, quantized, steps, back);
    check_way_back(coefficients, steps, quantized, back);
    check_negated(coefficients, steps, quantized);
    check_again(back, steps, quantized);
}

/* Steps and coefficients. */

/* steps of few bits, of any size, among the largest, or all the same */
static void make_steps(uint32_t *steps) {
    int32_t way = any(0, 3), low = way == 2 ? MOST_STEP - 24 : 1, high = way == 0 ? 8 : MOST_STEP, all = any(low, high);
    for (int k = 0; k < BLOCK; k++) steps[k] = (uint32_t)(way == 3 ? all : any(low, high));
}

/* the n-th of MOST_STEP lists: at every place they have every step once */
static void make_steps_in_turn(uint32_t *steps, int n) {
    for (int k = 0; k < BLOCK; k++) steps[k] = (uint32_t)(1 + (n + MOST_STEP / BLOCK * k) % MOST_STEP);
}

/* a multiple of 4 × step, which is a half or divides exactly, or a number beside one */
static int32_t near_half(int32_t step) {
    int32_t most = (MOST_COEFFICIENT - 1) / (4 * step);
    return 4 * step * any(-most, most) + any(-1, 1);
}

/* coefficients anywhere up to the limit, of all magnitudes, or near halves */
static void make_coefficients(int32_t *coefficients, const uint32_t *steps) {
    int32_t way = any(0, 2);
    for (int p = 0; p < BLOCK; p++) {
        if (way == 0) coefficients[p] = any(-MOST_COEFFICIENT, MOST_COEFFICIENT);
        if (way == 1) coefficients[p] = any(-MOST_COEFFICIENT, MOST_COEFFICIENT) / (1 << any(0, 21));
        if (way == 2) coefficients[p] = near_half((int32_t)steps[figure[p]]);
    }
}

/* the largest quantized value that is within the limit on the way back */
static int32_t most_value(const uint32_t *steps, int p) { return MOST_DEQUANTIZED / (8 * (int32_t)steps[figure[p]]); }

/* values that are accepted on the way back: of all sizes, or the largest */
static void make_values(int32_t *quantized, const uint32_t *steps) {
    int32_t largest = any(0, 3) == 0;
    for (int p = 0; p < BLOCK; p++) {
        int32_t most = most_value(steps, p);
        quantized[p] = largest ? (any(0, 1) ? most : -most) : any(-most, most);
    }
}

/* Accepted calls. */

/* by hand: a coefficient and its step, at each place, and the rest 0 */
static void worked_examples(void) {
    static const struct { int32_t coefficient; uint32_t step; int32_t quantized, back; } examples[] = {{3, 1, 0, 0}, {4, 1, 1, 8}, {-3, 1, 0, 0},
        {-4, 1, -1, -8}, {11, 1, 1, 8}, {12, 1, 2, 16}, {-12, 1, -2, -16}, {1000, 16, 8, 1024}, {-204, 3, -9, -216}, {4095, 1024, 0, 0},
        {4096, 1024, 1, 8192}, {-4096, 1024, -1, -8192}, {12287, 1024, 1, 8192}, {-12288, 1024, -2, -16384}, {4194303, 1, 524288, 4194304},
        {-4194303, 1, -524288, -4194304}, {4194303, 3, 174763, 4194312}, {4194303, 1023, 513, 4198392}, {-4194303, 1024, -512, -4194304}};
    uint32_t steps[BLOCK];
    for (size_t n = 0; n < COUNT(examples) * BLOCK; n++) {
        int32_t coefficients[BLOCK] = {0}, quantized[BLOCK], back[BLOCK], wanted[BLOCK] = {0};
        size_t p = n % BLOCK, e = n / BLOCK;
        begin("%d by the step %u, at %zu", (int)examples[e].coefficient, (unsigned)examples[e].step, p);
        make_steps(steps);
        steps[figure[p]] = examples[e].step;
        coefficients[p] = examples[e].coefficient;
        check_both_ways(coefficients, steps, quantized, back);
        wanted[p] = examples[e].quantized;
        expect(same(quantized, wanted), "it becomes %d, or a 0 another number", (int)quantized[p]);
        expect(back[p] == examples[e].back, "it comes back as %d", (int)back[p]);
    }
}

/* Figure A.6: a large step at one index after another, and steps that are all different, rising and falling */
static void zigzag(void) {
    for (int n = 0; n < BLOCK + 2; n++) {
        uint32_t steps[BLOCK];
        int32_t ones[BLOCK], divisors[BLOCK], many[BLOCK], made[BLOCK];
        begin("zig-zag order, list %d", n);
        for (int k = 0; k < BLOCK; k++) steps[k] = (uint32_t)(n == BLOCK ? k + 1 : n > BLOCK ? BLOCK - k : n == k ? MOST_STEP : 1);
        for (int p = 0; p < BLOCK; p++) {
            ones[p] = 1;
            divisors[p] = 8 * (int32_t)steps[figure[p]];
            many[p] = 500 * divisors[p];
        }
        check_accepted(DEQUANTIZE, ones, steps, made);
        expect(same(made, divisors), "the way back takes a step of another place");
        check_accepted(QUANTIZE, many, steps, made);
        for (int p = 0; p < BLOCK; p++) expect(made[p] == 500, "%d at %d becomes %d, expected is 500", (int)many[p], p, (int)made[p]);
    }
}

/* every step at every place, with halves of both signs, from the smallest to the largest, and the coefficients beside them */
static void halves(void) {
    enum { WAYS = 24 };
    uint32_t steps[BLOCK];
    int32_t coefficients[BLOCK], wanted[BLOCK], quantized[BLOCK], back[BLOCK];
    for (int n = 0; n < MOST_STEP * WAYS; n++) {
        begin("halves, list %d of steps, way %d", n / WAYS, n % WAYS);
        make_steps_in_turn(steps, n / WAYS);
        for (int p = 0; p < BLOCK; p++) {
            int32_t step = (int32_t)steps[figure[p]], way = (n + p) % WAYS, most = (MOST_COEFFICIENT / (4 * step) - 1) / 2;
            int32_t whole[] = {0, 1, any(0, most), most}, q = whole[way % 4], beside = way / 4 % 3 - 1, sign = way / 12 ? -1 : 1;
            coefficients[p] = sign * (4 * step * (2 * q + 1) + beside);
            wanted[p] = sign * (beside < 0 ? q : q + 1);
        }
        check_both_ways(coefficients, steps, quantized, back);
        for (int p = 0; p < BLOCK; p++)
            expect(quantized[p] == wanted[p], "%d at %d becomes %d, expected is %d", (int)coefficients[p], p, (int)quantized[p], (int)wanted[p]);
    }
}

/* the largest coefficients, by every step at every place: of all that comes back, the furthest is 4,198,392, by the step 1,023 */
static void coefficients_at_the_limit(void) {
    uint32_t steps[BLOCK];
    int32_t coefficients[BLOCK], quantized[BLOCK], back[BLOCK];
    int furthest = 0;
    for (int n = 0; n < MOST_STEP; n++) {
        begin("coefficients at the limit, list %d of steps", n);
        make_steps_in_turn(steps, n);
        for (int p = 0; p < BLOCK; p++) coefficients[p] = (n + p) % 2 ? MOST_COEFFICIENT : -MOST_COEFFICIENT;
        check_both_ways(coefficients, steps, quantized, back);
        for (int p = 0; p < BLOCK; p++) furthest = abs(back[p]) > furthest ? abs(back[p]) : furthest;
    }
    expect(furthest == 4198392, "the furthest that comes back is %d", furthest);
}

/* the largest values of both signs, by every step at every place, come back; at each place the next one is refused, alone or with others behind it */
static void values_at_the_limit(void) {
    uint32_t steps[BLOCK];
    int32_t quantized[BLOCK], back[BLOCK];
    for (int n = 0; n < 2 * MOST_STEP; n++) {
        int list = n / 2;
        begin("values at the limit, list %d of steps", list);
        make_steps_in_turn(steps, list);
        for (int p = 0; p < BLOCK; p++) quantized[p] = (n + p) % 2 ? most_value(steps, p) : -most_value(steps, p);
        check_accepted(DEQUANTIZE, quantized, steps, back);
        for (int p = BLOCK - 1; p >= 0; p--) {
            int32_t further = quantized[p] < 0 ? -1 : 1;
            begin("a value beyond the limit by one at %d, list %d of steps", p, list);
            quantized[p] += further;
            check_refused(DEQUANTIZE, quantized, steps, BAD_COEFFICIENT, (size_t)p);
            if (list % 2 == 0) quantized[p] -= further;
        }
    }
}

/* what round writes for blocks, at each width */
static void rounded_blocks(void) {
    uint32_t steps[BLOCK];
    int32_t samples[BLOCK], set[SET], coefficients[BLOCK], quantized[BLOCK], back[BLOCK];
    for (int n = 0; n < 2000; n++) {
        uint32_t b = widths[n % WIDTHS];
        begin("random block %d of pattern %d at b = %u", n, n % PATTERNS, (unsigned)b);
        make_samples(samples, 1, 1, (enum pattern)(n % PATTERNS));
        expect(weld_dct_forward(samples, BLOCK, set, SET).number == ACCEPTED && weld_dct_round(set, SET, b, coefficients, BLOCK).number == ACCEPTED,
               "forward or round refuses a block in range");
        make_steps(steps);
        check_both_ways(coefficients, steps, quantized, back);
    }
}

/* what round writes for sets at the limit, which are no block's: nothing of it is beyond the limit of coefficients */
static void rounded_sets(void) {
    uint32_t steps[BLOCK];
    int32_t set[SET], coefficients[BLOCK], quantized[BLOCK], back[BLOCK];
    for (int n = 0; n < 600; n++) {
        uint32_t b = widths[n % WIDTHS];
        begin("set %d at the limit, b = %u", n, (unsigned)b);
        make_set_at_limit(set);
        expect(weld_dct_round(set, SET, b, coefficients, BLOCK).number == ACCEPTED, "round refuses an accepted set");
        make_steps(steps);
        check_both_ways(coefficients, steps, quantized, back);
    }
}

static void random_calls(void) {
    uint32_t steps[BLOCK];
    int32_t coefficients[BLOCK], quantized[BLOCK], back[BLOCK];
    for (int n = 0; n < 40000; n++) {
        begin("random call %d", n);
        make_steps(steps);
        make_coefficients(coefficients, steps);
        check_both_ways(coefficients, steps, quantized, back);
        make_values(quantized, steps);
        check_accepted(DEQUANTIZE, quantized, steps, back);
    }
}

/* Refusals. */

/* numbers that a job accepts */
static void make_numbers(int job, int32_t *numbers, const uint32_t *steps) {
    if (job == QUANTIZE) make_coefficients(numbers, steps);
    else make_values(numbers, steps);
}

/* every three lengths, with steps and numbers that are refused for other causes: length comes first */
static void lengths(void) {
    enum { FAULTS = 4 };
    size_t of_block[LENGTHS];
    uint32_t steps[BLOCK];
    int32_t numbers[BLOCK];
    make_lengths(BLOCK, of_block);
    for (int n = 0; n < JOBS * FAULTS * LENGTHS * LENGTHS * LENGTHS; n++) {
        int job = n % JOBS, fault = n / JOBS % FAULTS, l = n / JOBS / FAULTS;
        size_t i = of_block[l % LENGTHS], j = of_block[l / LENGTHS % LENGTHS], m = of_block[l / LENGTHS / LENGTHS];
        make_steps(steps);
        make_numbers(job, numbers, steps);
        if (fault & 1) steps[any(0, BLOCK - 1)] = 0;
        if (fault & 2) numbers[any(0, BLOCK - 1)] = INT32_MIN;
        begin("lengths %zu, %zu and %zu, fault %d", i, j, m, fault);
        Answer answer = check_lengths(job, numbers, i, steps, j, m);
        expect((answer.number == BAD_LENGTH) == (i != BLOCK || j != BLOCK || m != BLOCK), "the second program has another answer");
    }
}

/* lengths that are right again in 32 bits: the whole length counts, and no buffer is written */
static void lengths_above_32_bits(void) {
    static const int32_t zeros[BLOCK];
    int32_t *huge = huge_buffer(), ones[BLOCK], output[BLOCK] = {0};
    begin("a length above 32 bits");
    for (int p = 0; p < BLOCK; p++) ones[p] = huge[p] = 1;
    for (int n = 0; n < 3 * JOBS; n++) {
        int32_t *buffers[] = {ones, ones, output};
        size_t counts[] = {BLOCK, BLOCK, BLOCK};
        buffers[n % 3] = huge;
        counts[n % 3] += ABOVE_32_BITS;
        struct weld_dct_answer answer =
            jobs[n / 3].library(buffers[0], counts[0], (uint32_t *)buffers[1], counts[1], buffers[2], counts[2]);
        expect_answer(jobs[n / 3].name, (Answer){BAD_LENGTH, 0}, answer.number, answer.place);
        expect(same(output, zeros) && same(huge, ones), "a refused call writes into a buffer");
    }
}

/* a step out of range at each index of the list, alone and with another behind it, and with numbers that are accepted, beyond the limit or all 0: the
 * lowest index is named, and the step comes first; in fewer bits, or times 8, some of the steps are in range again */
static void steps_out_of_range(void) {
    static const uint32_t out[] = {0, MOST_STEP + 1, 2 * MOST_STEP, 65536 + 1, 1u << 24 | 16, 1u << 29 | 1, 1u << 31, 1u << 31 | 1, UINT32_MAX};
    uint32_t steps[BLOCK];
    int32_t numbers[BLOCK];
    for (int n = 0; n < JOBS * (int)COUNT(out) * 6 * BLOCK; n++) {
        int k = n % BLOCK, others = n / BLOCK % 2, content = n / BLOCK / 2 % 3, job = n / BLOCK / 6 % JOBS, way = n / BLOCK / 6 / JOBS;
        make_steps(steps);
        make_numbers(job, numbers, steps);
        steps[k] = out[way];
        if (others) steps[any(k, BLOCK - 1)] = out[(way + 1) % (int)COUNT(out)];
        if (content == 1) numbers[any(0, BLOCK - 1)] = INT32_MIN;
        if (content == 2) memset(numbers, 0, sizeof numbers);
        begin("step %u at index %d, others %d, content %d", (unsigned)steps[k], k, others, content);
        check_refused(job, numbers, steps, BAD_STEP, (size_t)k);
    }
}

/* a coefficient beyond the limit at each place, alone and with others behind it: the lowest index is named */
static void coefficients_beyond_the_limit(void) {
    static const int32_t beyond[] = {MOST_COEFFICIENT + 1, -MOST_COEFFICIENT - 1, MOST_DEQUANTIZED, -MOST_DEQUANTIZED, 1 << 23, -(1 << 24),
        INT32_MAX, -INT32_MAX, INT32_MIN};
    uint32_t steps[BLOCK];
    int32_t coefficients[BLOCK];
    for (int n = 0; n < (int)COUNT(beyond) * 4 * BLOCK; n++) {
        int p = n % BLOCK, others = n / BLOCK % 4, way = n / BLOCK / 4;
        make_steps(steps);
        make_coefficients(coefficients, steps);
        coefficients[p] = beyond[way];
        for (; others > 0; others--) coefficients[any(p, BLOCK - 1)] = beyond[(way + others) % (int)COUNT(beyond)];
        begin("%d at %d", (int)coefficients[p], p);
        check_refused(QUANTIZE, coefficients, steps, BAD_COEFFICIENT, (size_t)p);
    }
}

/* on the way back, at each place, products that are within the limit again in 32 bits */
static void products_above_32_bits(void) {
    static const struct { int32_t value; uint32_t step; } above[] = {{1 << 29, 1}, {-(1 << 29), 1}, {(1 << 29) + 1, 1}, {1 << 28, 2}, {178956971, 3},
        {1 << 19, 1024}, {-(1 << 19) - 1, 1024}, {INT32_MAX, 1}, {INT32_MAX, 1024}, {-INT32_MAX, 1024}, {INT32_MIN, 1}, {INT32_MIN, 1024}};
    uint32_t steps[BLOCK];
    int32_t quantized[BLOCK];
    for (int n = 0; n < (int)COUNT(above) * 4 * BLOCK; n++) {
        int p = n % BLOCK, others = n / BLOCK % 4, way = n / BLOCK / 4;
        make_steps(steps);
        steps[figure[p]] = above[way].step;
        make_values(quantized, steps);
        quantized[p] = above[way].value;
        for (; others > 0; others--) quantized[any(p, BLOCK - 1)] = above[way].value;
        begin("%d by the step %u at %d", (int)quantized[p], (unsigned)above[way].step, p);
        check_refused(DEQUANTIZE, quantized, steps, BAD_COEFFICIENT, (size_t)p);
    }
}

/* prints how many calls there were; every answer that a job has must have come */
static void report(void) {
    static const uint32_t of_job[] = {ACCEPTED, BAD_LENGTH, BAD_STEP, BAD_COEFFICIENT};
    int calls[JOBS] = {0};
    begin("end");
    for (int job = 0; job < JOBS; job++) {
        for (int n = 0; n < ANSWERS; n++) calls[job] += answered[job][n];
        for (size_t n = 0; n < COUNT(of_job); n++)
            expect(answered[job][of_job[n]] > 0, "%s never answered %u", jobs[job].name, (unsigned)of_job[n]);
    }
    printf("quantization: %d calls of quantize (%d accepted) and %d of dequantize (%d) as 02 and T.81's Figure A.6 have them; seed %llu\n",
           calls[QUANTIZE], answered[QUANTIZE][ACCEPTED], calls[DEQUANTIZE], answered[DEQUANTIZE][ACCEPTED], (unsigned long long)seed);
}

int main(void) {
    start("quantization");
    worked_examples();
    zigzag();
    halves();
    coefficients_at_the_limit();
    values_at_the_limit();
    rounded_blocks();
    rounded_sets();
    random_calls();
    lengths();
    lengths_above_32_bits();
    steps_out_of_range();
    coefficients_beyond_the_limit();
    products_above_32_bits();
    report();
    return 0;
}
