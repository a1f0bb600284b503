/* Holds to_floats, summary and sheet_range to the second program, call by call: the answer, the floats by their bits, and every buffer with the guard
 * numbers about it. What they give is besides held to 02's words, in doubles, which have every number that occurs: a float times 8 or 64 is its
 * coefficient; of a block's other coefficients none is larger than the largest, and none as large before it; a sheet's all lie between the two, which
 * are among them. */
#include "weld_dct.h"
#include "sheet_cases.h"
#include <math.h>
#include <stdio.h>
#include <stdlib.h>
#include <string.h>
#include <xmmintrin.h>

enum { TO_FLOATS, SUMMARY, SHEET_RANGE, JOBS };

static const char *const jobs[JOBS] = {"to_floats", "summary", "sheet_range"};
static int answered[JOBS][ANSWERS];
static Pair given, left;                      /* the buffers of the last call: the one that is read, and the one that is written */
static float floats[GUARD + LONGEST + GUARD]; /* the library's side of the second, as floats */
static Summary summary;                       /* what the last calls gave */
static Range range;

static uint32_t bits_of(const float *x) {
    uint32_t bits;
    memcpy(&bits, x, sizeof bits);
    return bits;
}

static double value_of(uint32_t bits) {
    float x;
    memcpy(&x, &bits, sizeof x);
    return x;
}

static void expect_float(int job, const char *what, uint32_t wanted, const float *came) {
    expect(bits_of(came) == wanted, "%s gives %08X as %s, expected is %08X", jobs[job], (unsigned)bits_of(came), what, (unsigned)wanted);
}

static void settle(int job, Answer wanted, uint32_t number, size_t place) {
    expect_answer(jobs[job], wanted, number, place);
    compare(&given, jobs[job]);
    answered[job][wanted.number]++;
}

/* what the floats are before a call: no numbers, of both sorts and signs, infinities, the least above zero, and zero with a sign. None is the float
 * of a coefficient, and some have other bits once anything is worked out with them. */
static void make_no_floats(uint32_t *no_floats) {
    static const uint32_t all[] = {0x7F800001, 0x7FC00000, 0xFF800001, 0xFFFFFFFF, 0x7F800000, 0xFF800000, 0x00000001, 0x80000000};
    for (size_t p = 0; p < BLOCK; p++) no_floats[p] = all[p % COUNT(all)];
}

static Answer check_to_floats(const int32_t *coefficients, size_t n, size_t m) {
    uint32_t before[BLOCK];
    size_t bytes = (GUARD + m + GUARD) * sizeof floats[0];
    make_no_floats(before);
    fill(&given, "coefficients", coefficients, BLOCK, n);
    fill(&left, "floats", before, BLOCK, m);
    memcpy(floats, left.library, bytes);
    Answer wanted = second_to_floats(given.second + GUARD, n, (uint32_t *)left.second + GUARD, m);
    struct weld_dct_answer answer = weld_dct_to_floats(given.library + GUARD, n, floats + GUARD, m);
    memcpy(left.library, floats, bytes);
    settle(TO_FLOATS, wanted, answer.number, answer.place);
    compare(&left, jobs[TO_FLOATS]);
    return wanted;
}

static Answer check_summary(const int32_t *coefficients, size_t n) {
    fill(&given, "coefficients", coefficients, BLOCK, n);
    summary = second_summary(given.second + GUARD, n);
    struct weld_dct_summary_answer answer = weld_dct_summary(given.library + GUARD, n);
    settle(SUMMARY, summary.answer, answer.number, answer.place);
    expect(answer.textured == summary.textured, "summary gives %u as textured", (unsigned)answer.textured);
    expect_float(SUMMARY, "mean", summary.mean, &answer.mean);
    expect_float(SUMMARY, "largest", summary.largest, &answer.largest);
    return summary.answer;
}

/* 02's words. */

/* a float that is y over the divisor; zero has no sign */
static void check_float(uint32_t bits, int32_t y, int divisor) {
    expect(value_of(bits) * divisor == y && (y != 0 || bits == 0), "the float %08X is not %d / %d", (unsigned)bits, (int)y, divisor);
}

/* the last summary's largest is that of the first place whose magnitude no other exceeds; a block is flat if that is 0 */
static void check_largest(const int32_t *coefficients) {
    double magnitude = fabs(value_of(summary.largest) * 8);
    int first = 0;
    for (int p = BLOCK - 1; p > 0; p--) {
        expect(abs(coefficients[p]) <= magnitude, "%d at %d is larger than the largest, %g", (int)coefficients[p], p, magnitude);
        if (abs(coefficients[p]) == magnitude) first = p;
    }
    expect(first > 0, "no coefficient is as large as the largest, %g", magnitude);
    check_float(summary.largest, coefficients[first], 8);
    expect(summary.textured == (magnitude > 0), "textured is %u", (unsigned)summary.textured);
}

/* a block that both jobs have to accept */
static void check_block(const int32_t *coefficients) {
    expect(check_to_floats(coefficients, BLOCK, BLOCK).number == ACCEPTED, "to_floats refuses what it has to accept");
    for (int p = 0; p < BLOCK; p++) check_float((uint32_t)left.library[GUARD + p], coefficients[p], 8);
    expect(check_summary(coefficients, BLOCK).number == ACCEPTED, "summary refuses what it has to accept");
    check_float(summary.mean, coefficients[0], 64);
    check_largest(coefficients);
}

/* the last summary is a refusal for this cause at this place */
static void expect_refused(uint32_t number, size_t place) {
    expect(summary.answer.number == number && summary.answer.place == place, "the second program has another answer");
    expect(summary.textured == 0 && summary.mean == 0 && summary.largest == 0, "a refused summary is not all 0");
}

/* a block that both jobs have to refuse for the coefficient at p */
static void check_beyond(const int32_t *coefficients, size_t p) {
    Answer answer = check_to_floats(coefficients, BLOCK, BLOCK);
    expect(answer.number == BAD_COEFFICIENT && answer.place == p, "the second program has another answer");
    check_summary(coefficients, BLOCK);
    expect_refused(BAD_COEFFICIENT, p);
}

/* Accepted blocks. */

static int32_t any_sign(int32_t magnitude) { return any(0, 1) ? magnitude : -magnitude; }

/* a magnitude of any number of bits */
static int32_t any_magnitude(void) { return any(1, MOST_COEFFICIENT >> any(0, 21)); }

/* coefficients that are all smaller than the magnitude, but for the first, which is as large as any and does not count */
static void make_smaller(int32_t *coefficients, int32_t magnitude) {
    for (int p = 1; p < BLOCK; p++) coefficients[p] = any(1 - magnitude, magnitude - 1);
    coefficients[0] = any_sign(MOST_COEFFICIENT);
}

/* by hand: a coefficient at each place, the rest 0. Its float is the first one; at place 0 it is also the mean, which is the second. */
static void worked_examples(void) {
    static const struct { int32_t coefficient; uint32_t over_8, over_64; } examples[] = {{0, 0, 0}, {1, 0x3E000000, 0x3C800000},
        {-1, 0xBE000000, 0xBC800000}, {8, 0x3F800000, 0x3E000000}, {64, 0x41000000, 0x3F800000}, {-64, 0xC1000000, 0xBF800000},
        {237, 0x41ED0000, 0x406D0000}, {-237, 0xC1ED0000, 0xC06D0000}, {131008, 0x467FE000, 0x44FFE000}, {-131072, 0xC6800000, 0xC5000000},
        {2097088, 0x487FFE00, 0x46FFFE00}, {2097152, 0x48800000, 0x47000000}, {-2097152, 0xC8800000, 0xC7000000}, {4113712, 0x48FB14C0, 0x477B14C0},
        {4194302, 0x48FFFFF8, 0x477FFFF8}, {4194303, 0x48FFFFFC, 0x477FFFFC}, {-4194303, 0xC8FFFFFC, 0xC77FFFFC}};
    for (size_t n = 0; n < COUNT(examples) * BLOCK; n++) {
        size_t p = n % BLOCK, e = n / BLOCK;
        uint32_t over_8 = examples[e].over_8, over_64 = examples[e].over_64, wanted[BLOCK] = {0};
        int32_t coefficients[BLOCK] = {0};
        begin("%d alone at %zu", (int)examples[e].coefficient, p);
        coefficients[p] = examples[e].coefficient;
        wanted[p] = over_8;
        check_block(coefficients);
        expect(memcmp(left.library + GUARD, wanted, sizeof wanted) == 0, "its float is not %08X, or another is not 0", (unsigned)over_8);
        expect(summary.mean == (p == 0 ? over_64 : 0), "the mean is %08X", (unsigned)summary.mean);
        expect(summary.largest == (p == 0 ? 0 : over_8), "the largest is %08X", (unsigned)summary.largest);
        expect(summary.textured == (p > 0 && over_8 != 0), "textured is %u", (unsigned)summary.textured);
    }
}

/* every coefficient within the limit, 64 at a time; the last place of the last block is left over */
static void every_coefficient(void) {
    int32_t coefficients[BLOCK], next = -MOST_COEFFICIENT;
    while (next <= MOST_COEFFICIENT) {
        begin("every coefficient, from %d on", (int)next);
        for (int p = 0; p < BLOCK; p++) coefficients[p] = next > MOST_COEFFICIENT ? 0 : next++;
        check_block(coefficients);
    }
}

/* flat blocks of any mean; and 1 or -1 at one place, which is enough for texture */
static void flat_blocks(void) {
    static const int32_t firsts[] = {0, 1, -1, 63, -63, 64, -64, 65, MOST_COEFFICIENT, -MOST_COEFFICIENT};
    for (int n = 0; n < 20 * BLOCK; n++) {
        int32_t coefficients[BLOCK] = {n < (int)COUNT(firsts) ? firsts[n] : any_sign(any_magnitude())}, p = 1 + n % (BLOCK - 1);
        begin("a flat block, %d", (int)coefficients[0]);
        check_block(coefficients);
        expect(summary.textured == 0 && summary.largest == 0, "it is textured");
        begin("a flat block, %d, but for the place %d", (int)coefficients[0], (int)p);
        coefficients[p] = any_sign(1);
        check_block(coefficients);
        expect(summary.textured == 1, "it is flat");
        check_float(summary.largest, coefficients[p], 8);
    }
}

/* one that is larger than all others by 1, at each place, of each sign, and of many magnitudes */
static void larger_by_one(void) {
    int32_t coefficients[BLOCK];
    for (int n = 0; n < 50 * BLOCK; n++) {
        int p = 1 + n % (BLOCK - 1);
        int32_t magnitude = n / BLOCK == 0 ? MOST_COEFFICIENT : any_magnitude();
        begin("one of magnitude %d at %d, and all others smaller by 1", (int)magnitude, p);
        for (int q = 0; q < BLOCK; q++) coefficients[q] = any_sign(magnitude - 1);
        coefficients[p] = any_sign(magnitude);
        check_block(coefficients);
        check_float(summary.largest, coefficients[p], 8);
    }
}

/* two of the largest magnitude at p and behind it at q, with these signs */
static void check_tie(int p, int q, int32_t signs) {
    int32_t coefficients[BLOCK], magnitude = any_magnitude();
    begin("%d twice, at %d and at %d, signs %d", (int)magnitude, p, q, (int)signs);
    make_smaller(coefficients, magnitude);
    coefficients[p] = signs & 1 ? -magnitude : magnitude;
    coefficients[q] = signs & 2 ? -magnitude : magnitude;
    check_block(coefficients);
    check_float(summary.largest, coefficients[p], 8);
}

/* at every pair of places, with every pair of signs */
static void ties(void) {
    for (int n = 0; n < BLOCK * BLOCK; n++)
        for (int32_t signs = 0; signs < 4 && n / BLOCK > 0 && n / BLOCK < n % BLOCK; signs++) check_tie(n / BLOCK, n % BLOCK, signs);
}

/* all as large as each other from one place on: that one is named */
static void long_ties(void) {
    int32_t coefficients[BLOCK];
    for (int n = 0; n < 40 * BLOCK; n++) {
        int p = 1 + n % (BLOCK - 1);
        int32_t magnitude = n / BLOCK == 0 ? MOST_COEFFICIENT : any_magnitude();
        begin("%d at all places from %d on", (int)magnitude, p);
        make_smaller(coefficients, magnitude);
        for (int q = p; q < BLOCK; q++) coefficients[q] = any_sign(magnitude);
        check_block(coefficients);
        check_float(summary.largest, coefficients[p], 8);
    }
}

/* what round writes for blocks: the mean is that of the samples, at each width */
static void rounded_blocks(void) {
    int32_t samples[BLOCK], set[SET], coefficients[BLOCK];
    for (int n = 0; n < 4000; n++) {
        uint32_t b = widths[n % WIDTHS];
        int32_t sum = 0;
        begin("random block %d of pattern %d at b = %u", n, n % PATTERNS, (unsigned)b);
        make_samples(samples, 1, 1, (enum pattern)(n % PATTERNS));
        expect(weld_dct_forward(samples, BLOCK, set, SET).number == ACCEPTED && weld_dct_round(set, SET, b, coefficients, BLOCK).number == ACCEPTED,
               "forward or round refuses a block in range");
        check_block(coefficients);
        for (int q = 0; q < BLOCK; q++) sum += samples[q];
        check_float(summary.mean, sum, 64);
    }
}

/* what round writes for sets at the limit, which are no block's: nothing of it is beyond the limit of coefficients */
static void rounded_sets(void) {
    int32_t set[SET], coefficients[BLOCK];
    for (int n = 0; n < 600; n++) {
        uint32_t b = widths[n % WIDTHS];
        begin("set %d at the limit, b = %u", n, (unsigned)b);
        make_set_at_limit(set);
        expect(weld_dct_round(set, SET, b, coefficients, BLOCK).number == ACCEPTED, "round refuses an accepted set");
        check_block(coefficients);
    }
}

/* coefficients of one magnitude or of all, of few values, or most of them 0 */
static void random_blocks(void) {
    int32_t coefficients[BLOCK];
    for (int n = 0; n < 40000; n++) {
        int32_t most = any_magnitude();
        begin("random block %d", n);
        for (int p = 0; p < BLOCK; p++) {
            if (n % 4 == 0) coefficients[p] = any(-most, most);
            if (n % 4 == 1) coefficients[p] = any_sign(any_magnitude());
            if (n % 4 == 2) coefficients[p] = any_sign(any(most - most / 2, most));
            if (n % 4 == 3) coefficients[p] = any(0, 40) == 0 ? any(-2, 2) : 0;
        }
        check_block(coefficients);
    }
}

/* Refused blocks. */

/* every pair of lengths, with coefficients that are accepted and some that are not: length comes first */
static void lengths(void) {
    size_t of_block[LENGTHS];
    int32_t coefficients[BLOCK];
    make_lengths(BLOCK, of_block);
    for (int l = 0; l < 3 * LENGTHS * LENGTHS; l++) {
        size_t n = of_block[l % LENGTHS], m = of_block[l / LENGTHS % LENGTHS];
        make_smaller(coefficients, MOST_COEFFICIENT);
        if (l / LENGTHS / LENGTHS > 0) coefficients[l / LENGTHS / LENGTHS == 1 ? 0 : any(0, BLOCK - 1)] = INT32_MIN;
        begin("lengths %zu and %zu", n, m);
        Answer answer = check_to_floats(coefficients, n, m);
        expect((answer.number == BAD_LENGTH) == (n != BLOCK || m != BLOCK), "the second program has another answer");
        check_summary(coefficients, n);
        if (n != BLOCK) expect_refused(BAD_LENGTH, 0);
    }
}

/* lengths that are right again in 32 bits: the whole length counts, and no buffer is written */
static void lengths_above_32_bits(void) {
    static const int32_t zeros[BLOCK];
    int32_t *huge = huge_buffer(), coefficients[BLOCK];
    float output[BLOCK] = {0};
    size_t many = ABOVE_32_BITS + BLOCK;
    begin("a length above 32 bits");
    make_smaller(coefficients, MOST_COEFFICIENT);
    struct weld_dct_answer long_output = weld_dct_to_floats(coefficients, BLOCK, (float *)(void *)huge, many);
    expect_answer(jobs[TO_FLOATS], (Answer){BAD_LENGTH, 0}, long_output.number, long_output.place);
    expect(memcmp(huge, zeros, sizeof zeros) == 0, "a refused call writes into a buffer");
    memcpy(huge, coefficients, sizeof coefficients);
    struct weld_dct_answer long_block = weld_dct_to_floats(huge, many, output, BLOCK);
    expect_answer(jobs[TO_FLOATS], (Answer){BAD_LENGTH, 0}, long_block.number, long_block.place);
    expect(memcmp(output, zeros, sizeof zeros) == 0, "a refused call writes into a buffer");
    struct weld_dct_summary_answer long_summary = weld_dct_summary(huge, many);
    expect_answer(jobs[SUMMARY], (Answer){BAD_LENGTH, 0}, long_summary.number, long_summary.place);
    expect(long_summary.textured == 0, "a refused block is textured");
    expect_float(SUMMARY, "mean", 0, &long_summary.mean);
    expect_float(SUMMARY, "largest", 0, &long_summary.largest);
}

/* the limit at every place is accepted; a coefficient beyond it at each place, alone and with others behind it: the lowest index is named */
static void coefficients_beyond_the_limit(void) {
    static const int32_t beyond[] = {MOST_COEFFICIENT + 1, -MOST_COEFFICIENT - 1, MOST_COEFFICIENT + 2, MOST_DEQUANTIZED, -MOST_DEQUANTIZED, 1 << 23,
        -(1 << 24), (1 << 24) + 1, 1 << 30, INT32_MAX, -INT32_MAX, INT32_MIN};
    int32_t coefficients[BLOCK];
    for (int n = 0; n < (int)COUNT(beyond) * 4 * BLOCK; n++) {
        int p = n % BLOCK, others = n / BLOCK % 4, way = n / BLOCK / 4;
        begin("coefficients at the limit");
        for (int q = 0; q < BLOCK; q++) coefficients[q] = any_sign(MOST_COEFFICIENT);
        check_block(coefficients);
        coefficients[p] = beyond[way];
        for (; others > 0; others--) coefficients[any(p, BLOCK - 1)] = beyond[(way + others) % (int)COUNT(beyond)];
        begin("%d at %d", (int)coefficients[p], p);
        check_beyond(coefficients, (size_t)p);
        for (int q = 0; q < BLOCK; q++) coefficients[q] = q == p ? beyond[way] : 0;
        check_beyond(coefficients, (size_t)p);
    }
}

/* Sheets. */

/* the coefficients of an accepted sheet all lie between the two floats, and both are among them */
static void check_between(const Sheet *sheet) {
    double lowest = value_of(range.lowest) * 8, highest = value_of(range.highest) * 8;
    int as_low = 0, as_high = 0;
    for (size_t i = 1; i < sheet->count - 1; i++) {
        int32_t y = payload_value(sheet->words[i]);
        expect(lowest <= y && y <= highest, "%d at index %zu is not between %g and %g", (int)y, i, lowest, highest);
        as_low += y == lowest;
        as_high += y == highest;
    }
    expect(as_low > 0 && as_high > 0, "no coefficient is %g, or none is %g", lowest, highest);
    check_float(range.lowest, (int32_t)lowest, 8);
    check_float(range.highest, (int32_t)highest, 8);
}

static Answer check_range(const Sheet *sheet) {
    fill(&given, "words", sheet->words, sheet->count, sheet->count);
    range = second_sheet_range((uint32_t *)given.second + GUARD, sheet->count);
    struct weld_dct_range_answer answer = weld_dct_sheet_range((uint32_t *)given.library + GUARD, sheet->count);
    settle(SHEET_RANGE, range.answer, answer.number, answer.place);
    expect_float(SHEET_RANGE, "lowest", range.lowest, &answer.lowest);
    expect_float(SHEET_RANGE, "highest", range.highest, &answer.highest);
    if (range.answer.number == ACCEPTED) check_between(sheet);
    else expect(range.lowest == 0 && range.highest == 0, "a float of a refused sheet is not 0");
    return range.answer;
}

/* an accepted sheet, whose two coefficients are known */
static void check_pair(const Sheet *sheet, int32_t lowest, int32_t highest) {
    expect(check_range(sheet).number == ACCEPTED, "sheet_range refuses what it has to accept");
    check_float(range.lowest, lowest, 8);
    check_float(range.highest, highest, 8);
}

/* one block with a 1 at the first place and a -1 at the last, word for word; cut behind every word, and longer */
static void one_block(void) {
    Sheet sheet = {&coefficient_format, 66, {[0] = 0x40004001, [1] = 0x30000001, [64] = 0x3FFFFFFF, [65] = 0xF0000001}}, other;
    for (int i = 2; i < 64; i++) sheet.words[i] = 0x30000000;
    begin("1 and -1 in a block");
    check_pair(&sheet, -1, 1);
    expect(range.lowest == 0xBE000000 && range.highest == 0x3E000000, "the floats are not those of -1/8 and 1/8");
    for (size_t count = 0; count < 140; count++) {
        begin("a block, %zu words", count);
        other = sheet;
        set_count(&other, count);
        Answer answer = check_range(&other);
        uint32_t number = count == 0 ? BAD_HEAD : count == 66 ? ACCEPTED : BAD_WORDS;
        expect(answer.number == number && answer.place == (number == BAD_WORDS ? count : 0), "the second program has another answer");
    }
}

/* Worked examples, in every mode of rounding and of subnormal numbers that a caller may have set: nothing is rounded, and no float is subnormal. What
 * the test itself works out is exact, too. */
static void in_every_mode(void) {
    enum { DENORMALS_ARE_ZERO = 1 << 6 };
    static const unsigned roundings[] = {_MM_ROUND_NEAREST, _MM_ROUND_DOWN, _MM_ROUND_UP, _MM_ROUND_TOWARD_ZERO};
    static const unsigned subnormals[] = {0, _MM_FLUSH_ZERO_ON, DENORMALS_ARE_ZERO, _MM_FLUSH_ZERO_ON | DENORMALS_ARE_ZERO};
    unsigned usual = _mm_getcsr();
    for (size_t n = 0; n < COUNT(roundings) * COUNT(subnormals); n++) {
        _mm_setcsr((usual & ~(unsigned)_MM_ROUND_MASK) | roundings[n / COUNT(subnormals)] | subnormals[n % COUNT(subnormals)]);
        worked_examples();
        one_block();
        _mm_setcsr(usual);
    }
}

/* coefficients from one to another, most of them all of one sign: a range begun at 0 would be another */
static void signs(void) {
    enum { MOST = MOST_COEFFICIENT };
    static const int32_t bounds[][2] = {{0, 0}, {1, 1}, {-1, -1}, {8, 8}, {MOST, MOST}, {-MOST, -MOST}, {1, MOST}, {-MOST, -1}, {0, MOST}, {-MOST, 0},
        {-1, 0}, {0, 1}, {-1, 1}, {100, 107}, {-107, -100}, {MOST - 1, MOST}, {-MOST, 1 - MOST}, {-MOST, MOST}};
    static const uint32_t sizes[][2] = {{1, 1}, {2, 1}, {1, 3}, {4, 3}, {128, 1}, {8, 16}};
    Sheet sheet;
    for (size_t n = 0; n < COUNT(bounds) * COUNT(sizes); n++) {
        int32_t low = bounds[n % COUNT(bounds)][0], high = bounds[n % COUNT(bounds)][1];
        uint32_t a = sizes[n / COUNT(bounds)][0], d = sizes[n / COUNT(bounds)][1];
        begin("%d to %d, %u by %u blocks", (int)low, (int)high, (unsigned)a, (unsigned)d);
        make_sheet_of(&coefficient_format, &sheet, a, d, ANY);
        for (size_t i = 1; i < sheet.count - 1; i++) sheet.words[i] = make_word(COEFFICIENT, any(low, high));
        sheet.words[any(1, BLOCK / 2)] = make_word(COEFFICIENT, high);
        sheet.words[any(BLOCK / 2 + 1, BLOCK)] = make_word(COEFFICIENT, low);
        check_pair(&sheet, low, high);
    }
}

/* one coefficient that is lower than all others, or higher, at the index i of a column of blocks */
static void check_extreme(uint32_t blocks, size_t i) {
    static const int32_t extremes[] = {MOST_COEFFICIENT, -MOST_COEFFICIENT, 6, -6, 1};
    Sheet sheet;
    for (size_t n = 0; n < COUNT(extremes); n++) {
        int32_t y = extremes[n], other = y == 1 ? any_magnitude() + 1 : any(-5, 5);
        begin("%d among %d at index %zu, %u blocks", (int)y, (int)other, i, (unsigned)blocks);
        make_sheet_of(&coefficient_format, &sheet, 1, blocks, ANY);
        for (size_t k = 1; k < sheet.count - 1; k++) sheet.words[k] = make_word(COEFFICIENT, k == i ? y : other);
        check_pair(&sheet, y < other ? y : other, y < other ? other : y);
    }
}

/* at every index of small sheets, and about the first and the last of each block of a largest one */
static void extremes(void) {
    for (uint32_t blocks = 1; blocks <= 3; blocks++)
        for (size_t i = 1; i <= BLOCK * blocks; i++) check_extreme(blocks, i);
    for (size_t block = 0; block < MOST_BLOCKS; block++) {
        check_extreme(MOST_BLOCKS, BLOCK * block + 1);
        check_extreme(MOST_BLOCKS, BLOCK * block + BLOCK);
    }
}

/* the blocks of an accepted sheet, which both jobs of blocks accept too */
static void check_blocks_of(const Sheet *sheet) {
    int32_t coefficients[BLOCK];
    for (size_t i = 1; i < sheet->count - 1; i++) {
        coefficients[(i - 1) % BLOCK] = payload_value(sheet->words[i]);
        if (i % BLOCK == 0) check_block(coefficients);
    }
}

/* what sheet writes is accepted; the sample sheet itself is none of coefficients */
static void transformed_sheets(void) {
    Sheet samples, made;
    int32_t scratch[SET];
    for (int n = 0; n < 600; n++) {
        uint32_t a = (uint32_t)any(1, n % 20 == 0 ? 16 : 4), d = (uint32_t)any(1, n % 20 == 0 ? 8 : 4), b = widths[n % WIDTHS];
        begin("transformed sheet %d, %u by %u blocks of pattern %d, b = %u", n, (unsigned)a, (unsigned)d, n % PATTERNS, (unsigned)b);
        make_sheet(&samples, a, d, (enum pattern)(n % PATTERNS));
        made = samples;
        made.format = &coefficient_format;
        expect(weld_dct_sheet(samples.words, samples.count, b, scratch, SET, made.words, ROOM).number == ACCEPTED, "sheet refuses a right sheet");
        expect(check_range(&made).number == ACCEPTED, "sheet_range refuses what sheet writes");
        check_blocks_of(&made);
        expect(check_range(&samples).number == BAD_HEAD, "a sample sheet is not refused for its head");
    }
}

static void random_sheets(void) {
    Sheet sheet;
    for (int n = 0; n < 8000; n++) {
        uint32_t a = (uint32_t)any(1, n % 50 == 0 ? 16 : 4), d = (uint32_t)any(1, n % 50 == 0 ? 8 : 4);
        enum pattern pattern = (enum pattern)any(0, PATTERNS - 1);
        make_sheet_of(&coefficient_format, &sheet, a, d, pattern);
        if (n % 4 != 0) damage(&sheet);
        begin("random sheet %d, made as %u by %u blocks of pattern %u", n, (unsigned)a, (unsigned)d, (unsigned)pattern);
        check_range(&sheet);
    }
}

/* a count of words that is right again in 32 bits: the whole count is named */
static void words_above_32_bits(void) {
    uint32_t *huge = (uint32_t *)huge_buffer();
    size_t many = ABOVE_32_BITS + 66;
    Sheet sheet;
    begin("a count of words above 32 bits");
    make_sheet_of(&coefficient_format, &sheet, 1, 1, ANY);
    memcpy(huge, sheet.words, sheet.count * sizeof huge[0]);
    struct weld_dct_range_answer answer = weld_dct_sheet_range(huge, many);
    expect_answer(jobs[SHEET_RANGE], (Answer){BAD_WORDS, many}, answer.number, answer.place);
    expect_float(SHEET_RANGE, "lowest", 0, &answer.lowest);
    expect_float(SHEET_RANGE, "highest", 0, &answer.highest);
}

/* prints how many calls there were; every answer that a job has must have come, and no other */
static void report(void) {
    static const uint32_t of_block = 1 << ACCEPTED | 1 << BAD_LENGTH | 1 << BAD_COEFFICIENT;
    static const uint32_t of_sheet = 1 << ACCEPTED | 1 << BAD_HEAD | 1 << BAD_WORDS | 1 << BAD_END | 1 << BAD_COEFFICIENT;
    int calls[JOBS] = {0};
    begin("end");
    for (int n = 0; n < JOBS * ANSWERS; n++) {
        int job = n / ANSWERS, number = n % ANSWERS;
        uint32_t possible = job == SHEET_RANGE ? of_sheet : of_block;
        expect((answered[job][number] > 0) == (possible >> number & 1), "%s answered %d, %d times", jobs[job], number, answered[job][number]);
        calls[job] += answered[job][number];
    }
    printf("floats: %d calls of to_floats (%d accepted), %d of summary (%d) and %d of sheet_range (%d) as 02 has them; seed %llu\n", calls[TO_FLOATS],
           answered[TO_FLOATS][ACCEPTED], calls[SUMMARY], answered[SUMMARY][ACCEPTED], calls[SHEET_RANGE], answered[SHEET_RANGE][ACCEPTED],
           (unsigned long long)seed);
}

int main(void) {
    start("floats");
    in_every_mode();
    every_coefficient();
    flat_blocks();
    larger_by_one();
    ties();
    long_ties();
    rounded_blocks();
    rounded_sets();
    random_blocks();
    lengths();
    lengths_above_32_bits();
    coefficients_beyond_the_limit();
    sheet_cases(&(Job){check_range, &coefficient_format, 0, SIZE_MAX});
    signs();
    extremes();
    transformed_sheets();
    random_sheets();
    words_above_32_bits();
    report();
    return 0;
}
