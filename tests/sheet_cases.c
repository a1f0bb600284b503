#include "sheet_cases.h"
#include <stdlib.h>

static const Job *job;
static const uint32_t some_counts[] = {1, 2, 3, 128}; /* of blocks */

/* Making sheets. */

/* a coefficient near so many times the sample that the highest goes up to the limit */
static int32_t spread(int32_t sample) {
    int32_t times = MOST_COEFFICIENT / HIGHEST, y = times * sample + any(-times, times);
    return y < -MOST_COEFFICIENT ? -MOST_COEFFICIENT : y > MOST_COEFFICIENT ? MOST_COEFFICIENT : y;
}

void make_sheet_of(const Format *format, Sheet *sheet, uint32_t a, uint32_t d, enum pattern pattern) {
    int32_t samples[MOST_BLOCKS * BLOCK];
    sheet->format = format;
    sheet->count = sheet_count(a * d);
    make_samples(samples, a, d, pattern);
    sheet->words[0] = make_head(format->head, a, d);
    for (size_t n = 0; n < sheet->count - 2; n++)
        sheet->words[1 + n] = make_word(format->body, format == &sample_format ? samples[n] : spread(samples[n]));
    sheet->words[sheet->count - 1] = make_word(END, a * d);
}

void make_sheet(Sheet *sheet, uint32_t a, uint32_t d, enum pattern pattern) { make_sheet_of(&sample_format, sheet, a, d, pattern); }

void make_with_sum(Sheet *sheet, uint32_t blocks, int32_t sum, int mixed) {
    int32_t samples[MOST_BLOCKS * BLOCK], count = (int32_t)(BLOCK * blocks);
    for (int32_t n = 0; n < count; n++) samples[n] = (sum < 0 ? -1 : 1) * ((abs(sum) + n) / count);
    for (int32_t n = 0; n < count && mixed; n++) {
        int32_t *from = samples + n, *to = samples + any(0, count - 1);
        int32_t most = *from - LOWEST, room = HIGHEST - *to, amount = any(0, most < room ? most : room);
        *from -= amount;
        *to += amount;
    }
    make_sheet(sheet, 1, blocks, ANY);
    for (int32_t n = 0; n < count; n++) sheet->words[1 + n] = make_word(SAMPLE, samples[n]);
}

void set_count(Sheet *sheet, size_t count) {
    for (; sheet->count < count; sheet->count++) sheet->words[sheet->count] = make_word(sheet->format->body, 1);
    sheet->count = count;
}

void damage(Sheet *sheet) {
    const Format *format = sheet->format;
    for (int32_t times = any(1, 2); times > 0 && sheet->count > 0; times--) {
        int32_t how = any(0, 5), last = (int32_t)sheet->count - 1;
        uint32_t *word = sheet->words + any(0, last);
        if (how == 0) *word ^= 1u << any(0, 31);
        else if (how == 1) *word = (uint32_t)any(INT32_MIN, INT32_MAX);
        else if (how == 2) *word = make_word(format->body, any(2 * format->lowest, 2 * format->highest));
        else if (how == 3) *word = sheet->words[any(0, last)];
        else if (how == 4) sheet->words[last] = make_word(END, any(0, 16));
        else set_count(sheet, (size_t)any(0, last + 3));
    }
}

/* a sheet of one column of blocks, for the job */
static void make_column(Sheet *sheet, uint32_t blocks) { make_sheet_of(job->format, sheet, 1, blocks, ANY); }

/* the format that is not the job's */
static const Format *other_format(void) { return job->format == &sample_format ? &coefficient_format : &sample_format; }

/* Running cases whose answers are known beforehand: the second program is held to them, too. */

static void check(const Sheet *sheet, uint32_t number, size_t place) {
    Answer answer = job->check(sheet);
    if (number == ACCEPTED) place = job->b == 0 ? 0 : sheet->count;
    expect(answer.number == number && answer.place == place, "the second program answers %u at %zu, the case has %u at %zu", (unsigned)answer.number,
           answer.place, (unsigned)number, place);
}

static void check_accepted(const Sheet *sheet) { check(sheet, ACCEPTED, 0); }

/* the case in which the word at index i is w; the sheet stays as it was */
static void check_with(Sheet *sheet, size_t i, uint32_t w, uint32_t number, size_t place) {
    uint32_t was = sheet->words[i];
    begin("word %08X at index %zu of %zu, b = %u", (unsigned)w, i, sheet->count, (unsigned)job->b);
    sheet->words[i] = w;
    check(sheet, number, place);
    sheet->words[i] = was;
}

static void check_with_two(Sheet *sheet, size_t i, uint32_t w, size_t j, uint32_t x, uint32_t number, size_t place) {
    uint32_t was = sheet->words[j];
    sheet->words[j] = x;
    check_with(sheet, i, w, number, place);
    sheet->words[j] = was;
}

/* Cases. */

/* every pair of sizes, with a value out of range and a word more besides */
static void all_sizes(void) {
    Sheet sheet;
    for (uint32_t a = 1; a <= MOST_BLOCKS; a++)
        for (uint32_t d = 1; a * d <= MOST_BLOCKS; d++) {
            enum pattern pattern = (a + d) % PATTERNS;
            begin("%u by %u blocks, pattern %u, b = %u", (unsigned)a, (unsigned)d, (unsigned)pattern, (unsigned)job->b);
            make_sheet_of(job->format, &sheet, a, d, pattern);
            check_accepted(&sheet);
            size_t i = (size_t)any(1, (int32_t)(BLOCK * a * d));
            check_with(&sheet, i, make_word(job->format->body, job->format->highest + 1), job->format->cause, i);
            set_count(&sheet, sheet.count + 1);
            check_with(&sheet, 0, sheet.words[0], BAD_WORDS, sheet.count);
        }
}

/* the largest sheets of each form and pattern */
static void largest(void) {
    Sheet sheet;
    for (enum pattern pattern = 0; pattern < PATTERNS; pattern++)
        for (uint32_t a = 1; a <= MOST_BLOCKS; a *= 2) {
            begin("largest, %u across, pattern %u, b = %u", (unsigned)a, (unsigned)pattern, (unsigned)job->b);
            make_sheet_of(job->format, &sheet, a, MOST_BLOCKS / a, pattern);
            check_accepted(&sheet);
        }
}

/* every sample in range, out of order, in as many sheets as that takes */
static void every_sample(void) {
    uint32_t samples = HIGHEST - LOWEST + 1, each = MOST_BLOCKS * BLOCK;
    Sheet sheet;
    make_column(&sheet, MOST_BLOCKS);
    for (uint32_t first = 0; first < samples; first += each) {
        begin("every sample in range, from %u on, b = %u", (unsigned)first, (unsigned)job->b);
        for (uint32_t n = 0; n < each; n++) sheet.words[1 + n] = make_word(SAMPLE, (int64_t)((first + n) * 21931 % samples) + LOWEST);
        check_accepted(&sheet);
    }
}

/* for each place the block whose coefficient there is the highest of all, and the one whose is the lowest */
static void extreme_coefficients(void) {
    Sheet sheet;
    int32_t samples[BLOCK];
    make_column(&sheet, MOST_BLOCKS);
    begin("the highest and the lowest coefficient at each place, b = %u", (unsigned)job->b);
    for (size_t n = 0; n < MOST_BLOCKS * BLOCK; n++) {
        if (n % BLOCK == 0) make_extreme(samples, (int)(n / BLOCK) / 2, n / BLOCK % 2);
        sheet.words[1 + n] = make_word(SAMPLE, samples[n % BLOCK]);
    }
    check_accepted(&sheet);
}

/* N of a block at (0,1) */
static int64_t N_beside_corner(const int32_t *samples, uint32_t b) {
    int32_t elements[SET];
    second_forward(samples, BLOCK, elements, SET);
    return table_sum(elements + 8, b);
}

/* Two column sums for which N at (0,1) is a half: 2^b more than a multiple of 2^(b+1). A column sum of 1 adds its weight to N. */
static int find_half(const int64_t *weight, int32_t *sum, uint32_t b) {
    int64_t half = (int64_t)1 << b;
    for (sum[0] = 0; sum[0] <= 8 * HIGHEST; sum[0]++)
        for (sum[1] = 0; sum[1] <= 8 * HIGHEST; sum[1]++)
            if ((sum[0] * weight[0] + sum[1] * weight[1]) % (2 * half) == half) return 1;
    return 0;
}

void make_halves(Sheet *sheet, uint32_t b) {
    int64_t weight[2], half = (int64_t)1 << b;
    int32_t samples[BLOCK] = {0}, sum[2];
    for (int j = 0; j < 2; j++) {
        samples[j] = 1;
        weight[j] = N_beside_corner(samples, b);
        samples[j] = 0;
    }
    expect(find_half(weight, sum, b), "no column sums give a half");
    make_sheet(sheet, 1, 2, ANY);
    for (int sign = 1; sign >= -1; sign -= 2) {
        for (int q = 0; q < BLOCK; q++) {
            samples[q] = q % 8 < 2 ? sign * ((sum[q % 8] + q / 8) / 8) : 0; /* the sum, shared out over eight rows */
            sheet->words[(sign == 1 ? 1 : 1 + BLOCK) + q] = make_word(SAMPLE, samples[q]);
        }
        int64_t rest = N_beside_corner(samples, b) % (2 * half);
        expect(rest == sign * half, "the block has no half");
    }
}

/* halves go away from zero */
static void halves(void) {
    Sheet sheet;
    begin("halves, b = %u", (unsigned)job->b);
    make_halves(&sheet, job->b);
    check_accepted(&sheet);
}

/* Sizes that are not allowed. Among them are products that are small again in 8, 16 or 24 bits, sizes that are 1 again where a high bit is lost, and
 * those whose count of words is 66 again in 16 bits (25 · 41) or in 32 (8321 · 8065). */
static void sizes(void) {
    static const uint32_t pairs[][2] = {{0, 1}, {1, 0}, {0, 0}, {0, 128}, {16383, 0}, {0, 16383}, {1, 129}, {129, 1}, {43, 3}, {3, 43}, {2, 65},
        {12, 11}, {1, 257}, {257, 1}, {129, 2}, {25, 41}, {241, 272}, {256, 256}, {1549, 10831}, {4096, 4096}, {8192, 8192}, {8321, 8065},
        {513, 1}, {1, 513}, {1025, 1}, {1, 1025}, {2049, 1}, {1, 2049}, {4097, 1}, {1, 4097}, {8193, 1}, {1, 8193}, {16383, 1}, {1, 16383},
        {16382, 16383}, {16383, 16383}};
    static const size_t counts[] = {1, 2, 66, 130, 194, 1026, 8194, 8195};
    Sheet sheet;
    for (size_t n = 0; n < COUNT(pairs); n++)
        for (size_t m = 0; m < COUNT(counts); m++) {
            uint32_t a = pairs[n][0], d = pairs[n][1];
            make_column(&sheet, MOST_BLOCKS);
            set_count(&sheet, counts[m]);
            check_with_two(&sheet, 0, make_head(job->format->head, a, d), counts[m] - 1, make_word(END, a * d), BAD_HEAD, 0);
        }
}

/* every kind at the head, at body words and at the end */
static void kinds(void) {
    Sheet sheet;
    for (size_t c = 0; c < COUNT(some_counts); c++) {
        uint32_t blocks = some_counts[c];
        size_t last = BLOCK * blocks, body[] = {1, 2, last / 2, last - 63, last};
        make_column(&sheet, blocks);
        for (uint32_t k = 0; k < 16; k++) {
            check_with(&sheet, 0, make_head(k, 1, blocks), k == job->format->head ? ACCEPTED : BAD_HEAD, 0);
            for (size_t n = 0; n < COUNT(body); n++)
                check_with(&sheet, body[n], make_word(k, 5), k == job->format->body ? ACCEPTED : BAD_WORDS, body[n]);
            check_with(&sheet, last + 1, make_word(k, blocks), k == END ? ACCEPTED : BAD_WORDS, last + 1);
        }
    }
}

/* values about the limits, at the ends of the payload, and in range again in fewer bits; samples that 01 refused, before request 6; and the end
 * word's number */
static void values(void) {
    int32_t lowest = job->format->lowest, highest = job->format->highest, within[] = {highest, lowest, 0, -1, 2048, -2049};
    int32_t out[] = {highest + 1, lowest - 1, highest + 2, 2 * highest + 1, 2 * highest + 2, 2 * lowest, (1 << 24) + 5, (1 << 24) - 5, (1 << 27) - 1,
        -(1 << 27), 1 << 26, -(1 << 26)};
    uint32_t body_kind = job->format->body, cause = job->format->cause;
    Sheet sheet;
    for (size_t c = 0; c < COUNT(some_counts); c++) {
        uint32_t blocks = some_counts[c];
        size_t last = BLOCK * blocks, body[] = {1, 2, last / 2, last - 63, last};
        uint32_t ends[] = {blocks - 1, blocks + 1, 0, 0x0FFFFFFF, blocks + 256, blocks + 65536, blocks + (1 << 27), blocks << 14,
            2 + 64 * blocks, 64 * blocks};
        make_column(&sheet, blocks);
        for (size_t n = 0; n < COUNT(body); n++) {
            for (size_t m = 0; m < COUNT(out); m++) check_with(&sheet, body[n], make_word(body_kind, out[m]), cause, body[n]);
            for (size_t m = 0; m < COUNT(within); m++) check_with(&sheet, body[n], make_word(body_kind, within[m]), ACCEPTED, 0);
        }
        for (size_t m = 0; m < COUNT(ends); m++) check_with(&sheet, last + 1, make_word(END, ends[m]), BAD_END, last + 1);
    }
}

/* each body word in turn: of another kind, above the range or below it, and both of another kind and out of range */
static void every_place(void) {
    const Format *format = job->format;
    Sheet sheet;
    make_column(&sheet, 2);
    for (size_t i = 1; i <= 2 * BLOCK; i++) {
        check_with(&sheet, i, make_word(other_format()->body, 5), BAD_WORDS, i);
        check_with(&sheet, i, make_word(format->body, format->highest + 1), format->cause, i);
        check_with(&sheet, i, make_word(format->body, format->lowest - 1), format->cause, i);
        check_with(&sheet, i, make_word(END, format->highest + 1), BAD_WORDS, i);
    }
    check_with(&sheet, 129, make_word(format->body, 3), BAD_WORDS, 129);
    check_with(&sheet, 129, make_word(format->body, 2), BAD_WORDS, 129);
}

/* two faults: the lower index is named, whichever their causes */
static void two_faults(void) {
    const Format *format = job->format;
    const struct { uint32_t word, number; } faulty[] = {{make_word(other_format()->body, 0), BAD_WORDS},
        {make_word(format->body, format->highest + 1), format->cause}, {make_word(format->body, format->lowest - 1), format->cause},
        {make_word(END, format->highest + 1), BAD_WORDS}};
    Sheet sheet;
    for (size_t c = 0; c < COUNT(some_counts); c++) {
        uint32_t blocks = some_counts[c];
        size_t last = BLOCK * blocks, places[][2] = {{1, 2}, {1, last}, {7, 9}, {last / 2, last}, {last - 1, last}, {last / 2, last / 2 + 1}};
        make_column(&sheet, blocks);
        for (size_t n = 0; n < 4; n++) {
            uint32_t w = faulty[n].word, number = faulty[n].number;
            for (size_t m = 0; m < 4 * COUNT(places); m++)
                check_with_two(&sheet, places[m / 4][0], w, places[m / 4][1], faulty[m % 4].word, number, places[m / 4][0]);
            check_with_two(&sheet, last, w, last + 1, make_word(END, blocks + 1), number, last);
            check_with_two(&sheet, 1, w, last + 1, make_word(format->body, blocks), number, 1);
            check_with_two(&sheet, last / 2, w, 0, make_head(format->head, 0, blocks), BAD_HEAD, 0);
        }
    }
}

/* the count of words: too low and too high, and against the causes before and after it */
static void counts(void) {
    static const int more[] = {-63, -2, -1, 1, 2, 64};
    const Format *format = job->format;
    Sheet sheet;
    for (size_t c = 0; c < COUNT(some_counts); c++)
        for (size_t n = 0; n < COUNT(more); n++) {
            uint32_t blocks = some_counts[c];
            size_t count = sheet_count(blocks) + (size_t)more[n], seen = count < job->most_words ? count : job->most_words;
            make_column(&sheet, blocks);
            set_count(&sheet, count);
            check_with(&sheet, 0, sheet.words[0], BAD_WORDS, seen);
            check_with(&sheet, 1, make_word(format->body, format->highest + 1), BAD_WORDS, seen);
            check_with(&sheet, 2, make_word(other_format()->body, 0), BAD_WORDS, seen);
            check_with(&sheet, count - 1, make_word(END, blocks), BAD_WORDS, seen);
            check_with(&sheet, 0, make_head(other_format()->head, 1, blocks), BAD_HEAD, 0);
            check_with(&sheet, 0, make_head(format->head, 0, blocks), BAD_HEAD, 0);
        }
}

void sheet_cases(const Job *under_test) {
    job = under_test;
    all_sizes();
    largest();
    sizes();
    kinds();
    values();
    every_place();
    two_faults();
    counts();
    if (job->b == 0) return;
    every_sample();
    extreme_coefficients();
    halves();
}
