#include "second.h"
#include <math.h>
#include <stdlib.h>
#include <string.h>

/* Request 6 has these figures; they all follow from the lowest sample. */
_Static_assert(HIGHEST == 32767 && MOST_MAGNITUDES == 4194304 && DISTANCE == 1048576, "request 6 has other figures");

/* One component of a product of two cosines, and how often it stands there. */
typedef struct { int component, times; } Term;

/* The place of an element, and the sign with which it is taken. */
typedef struct { int place, sign; } Source;

const uint32_t widths[WIDTHS] = {11, 20, 26};
const Format sample_format = {SAMPLE_HEAD, SAMPLE, LOWEST, HIGHEST, BAD_SAMPLE};
const Format coefficient_format = {COEFFICIENT_HEAD, COEFFICIENT, -MOST_COEFFICIENT, MOST_COEFFICIENT, BAD_COEFFICIENT};
static Term terms[BLOCK][BLOCK][2];         /* t(u,i) × t(v,j), at [8u+v][8i+j]: c_(a+b) and c_(a-b) */
static long double factors[BLOCK][BLOCK];   /* 1/4 · C(u) · C(v) · cos((2i+1)uπ/16) · cos((2j+1)vπ/16), at [8u+v][8i+j] */
static long double cosines[8];              /* 1, and c_1 to c_7 */
static int64_t tables[WIDTHS][8];           /* 2^b, and m_1 to m_7 */
static Source sources[ORIENTATIONS][BLOCK]; /* of the element at each place, before the block was reoriented */
static int in_zigzag[BLOCK];                /* the index in zig-zag order of each place 8u+v */

/* Cosines. */

/* whether n² < 2^e, of an n from 1 to below 2^127; n² is two halves of 128 bits */
static int square_below(unsigned __int128 n, int e) {
    unsigned __int128 high = n >> 64, low = (uint64_t)n;
    unsigned __int128 middle = 2 * high * low + (low * low >> 64);
    return e >= 128 ? high * high + (middle >> 64) < (unsigned __int128)1 << (e - 128) : n * n < (unsigned __int128)1 << e;
}

/* whether the fraction n/2^e lies below c_k: 01's rule, by squares */
static int below(int k, __int128 n, int e) {
    static const int next[8] = {0, 2, 4, 6, 0, 6, 4, 2};
    if (n <= 0) return 1;
    if (k == 4) return square_below((unsigned __int128)n, 2 * e + 1);
    __int128 difference = n * n - ((__int128)1 << (2 * e + 1));
    return k < 4 ? below(next[k], difference, 2 * e) : !below(next[k], -difference, 2 * e);
}

/* c_m by 01's rules, for any whole m */
static Term cosine_term(int m) {
    m = abs(m) % 32;
    if (m > 16) m = 32 - m;
    if (m > 8) return (Term){16 - m, m == 16 ? -2 : -1};
    return m == 8 ? (Term){0, 0} : (Term){m, m == 0 ? 2 : 1};
}

static long double C(int k) { return k == 0 ? 1 / sqrtl(2) : 1; }

static void make_factors(int u, int v, int i, int j) {
    int p = 8 * u + v, q = 8 * i + j, a = u == 0 ? 4 : (2 * i + 1) * u, b = v == 0 ? 4 : (2 * j + 1) * v;
    long double pi = acosl(-1);
    terms[p][q][0] = cosine_term(a + b);
    terms[p][q][1] = cosine_term(a - b);
    factors[p][q] = C(u) * C(v) * cosl((2 * i + 1) * u * pi / 16) * cosl((2 * j + 1) * v * pi / 16) / 4;
}

/* Orientations. */

void reorient_samples(const int32_t *samples, uint32_t orientation, int32_t *reoriented) {
    int32_t swapped[BLOCK];
    for (int q = 0; q < BLOCK; q++) swapped[q] = samples[orientation < 4 ? q : 8 * (q % 8) + q / 8];
    for (int q = 0; q < BLOCK; q++) {
        int i = q / 8, j = q % 8;
        reoriented[q] = swapped[8 * (orientation & 2 ? 7 - i : i) + (orientation & 1 ? 7 - j : j)];
    }
}

/* a block whose samples are the indices that they had before it was reoriented */
static void make_indices(uint32_t orientation, int32_t *indices) {
    int32_t all[BLOCK];
    for (int q = 0; q < BLOCK; q++) all[q] = q;
    reorient_samples(all, orientation, indices);
}

/* whether the factor at p of each sample, where it is now, is the one at the source, where it was, with the sign */
static int is_source(Source source, int p, const int32_t *indices) {
    int same = 1;
    for (int q = 0; q < BLOCK && same; q++) same = fabsl(factors[p][q] - source.sign * factors[source.place][indices[q]]) < 1e-12L;
    return same;
}

/* The source of each element of a reoriented block: where the factors of all 64 samples agree, so do the elements of every block. False if a place
 * has not exactly one. */
static int find_sources(uint32_t orientation) {
    int32_t indices[BLOCK];
    int only = 1;
    make_indices(orientation, indices);
    for (int p = 0; p < BLOCK; p++) {
        int found = 0;
        for (int n = 0; n < 2 * BLOCK; n++) {
            Source source = {n / 2, n % 2 ? -1 : 1};
            if (!is_source(source, p, indices)) continue;
            sources[orientation][p] = source;
            found++;
        }
        only = only && found == 1;
    }
    return only;
}

/* Zig-zag order. */

/* T.81's Figure A.6, walked from place to place: upwards to the right, and downwards to the left. Where that leads out of the block, the walk goes
 * one place along the edge, to the right or down, and turns. */
static void walk_zigzag(void) {
    int u = 0, v = 0, upwards = 1;
    for (int k = 0; k < BLOCK; k++) {
        int next_u = upwards ? u - 1 : u + 1, next_v = upwards ? v + 1 : v - 1;
        in_zigzag[8 * u + v] = k;
        if (next_u >= 0 && next_u < 8 && next_v >= 0 && next_v < 8) {
            u = next_u;
            v = next_v;
            continue;
        }
        if (upwards ? v < 7 : u == 7) v++;
        else u++;
        upwards = !upwards;
    }
}

/* Tables. */

int make_second(void) {
    int follows = 1;
    for (int n = 0; n < BLOCK * BLOCK; n++) make_factors(n / 512, n / 64 % 8, n / 8 % 8, n % 8);
    for (int k = 0; k < 8; k++) cosines[k] = k == 0 ? 1 : 2 * cosl(k * acosl(-1) / 16);
    for (int w = 0; w < WIDTHS; w++)
        for (int k = 0; k < 8; k++) {
            int b = (int)widths[w];
            int64_t m = tables[w][k] = llroundl(ldexpl(cosines[k], b));
            if (k > 0) follows = follows && below(k, 2 * m - 1, b + 1) && !below(k, 2 * m + 1, b + 1);
        }
    for (uint32_t orientation = 0; orientation < ORIENTATIONS; orientation++) follows = find_sources(orientation) && follows;
    walk_zigzag();
    return follows;
}

/* Elements. */

long double T81_factor(int p, int q) { return factors[p][q]; }

long double T81(const int32_t *samples, int p) {
    long double sum = 0;
    for (int q = 0; q < BLOCK; q++) sum += samples[q] * factors[p][q];
    return sum;
}

long double element_value(const int32_t *u) {
    long double sum = 0;
    for (int k = 0; k < 8; k++) sum += u[k] * cosines[k];
    return sum;
}

/* the exact double sum at each place, of samples in range */
static void make_elements(const int32_t *samples, int32_t *elements) {
    memset(elements, 0, SET * sizeof elements[0]);
    for (int p = 0; p < BLOCK; p++)
        for (int q = 0; q < BLOCK; q++)
            for (int n = 0; n < 2; n++) elements[8 * p + terms[p][q][n].component] += samples[q] * terms[p][q][n].times;
}

static int in_range(int32_t sample) { return sample >= LOWEST && sample <= HIGHEST; }

/* the lowest number of an element whose magnitudes sum above the limit, or 64 */
static size_t first_above(const int32_t *elements) {
    size_t p = 0;
    for (; p < BLOCK; p++) {
        int64_t magnitudes = 0;
        for (size_t k = 0; k < 8; k++) magnitudes += llabs((long long)elements[8 * p + k]);
        if (magnitudes > MOST_MAGNITUDES) break;
    }
    return p;
}

/* Whether a block in range has these elements, and which. No other block can: T.81's inverse formula gives the samples from the values. */
static int find_block(const int32_t *elements, int32_t *samples) {
    long double sums[BLOCK] = {0};
    int32_t again[SET];
    for (int p = 0; p < BLOCK; p++) {
        long double S = element_value(elements + 8 * p) / 16;
        for (int q = 0; q < BLOCK; q++) sums[q] += S * factors[p][q];
    }
    for (int q = 0; q < BLOCK; q++) {
        samples[q] = (int32_t)lroundl(sums[q]);
        if (!in_range(samples[q])) return 0;
    }
    make_elements(samples, again);
    return memcmp(elements, again, sizeof again) == 0;
}

Answer second_forward(const int32_t *samples, size_t n, int32_t *elements, size_t m) {
    if (n != BLOCK || m != SET) return (Answer){BAD_LENGTH, 0};
    for (size_t q = 0; q < BLOCK; q++)
        if (!in_range(samples[q])) return (Answer){BAD_SAMPLE, q};
    make_elements(samples, elements);
    return (Answer){ACCEPTED, 0};
}

Answer second_back(const int32_t *elements, size_t n, int32_t *samples, size_t m) {
    int32_t found[BLOCK];
    if (n != SET || m != BLOCK) return (Answer){BAD_LENGTH, 0};
    if (first_above(elements) < BLOCK) return (Answer){BAD_MAGNITUDES, first_above(elements)};
    if (!find_block(elements, found)) return (Answer){NO_BLOCK, 0};
    memcpy(samples, found, sizeof found);
    return (Answer){ACCEPTED, 0};
}

/* Coefficients. */

/* which of the widths b is, or WIDTHS if it is none */
static int width_index(uint32_t b) {
    int w = 0;
    while (w < WIDTHS && widths[w] != b) w++;
    return w;
}

int64_t table_number(int k, uint32_t b) { return tables[width_index(b)][k]; }

int64_t table_sum(const int32_t *u, uint32_t b) {
    int64_t N = 0;
    for (int k = 0; k < 8; k++) N += table_number(k, b) * u[k];
    return N;
}

/* The whole number whose product with D is nearest to y, of two as near the one further from zero. It is one of the three about the quotient
 * without its fraction. */
static int32_t nearest(int64_t y, int64_t D) {
    int64_t found = y / D;
    for (int64_t q = y / D - 1; q <= y / D + 1; q++) {
        int64_t distance = llabs(y - D * q), least = llabs(y - D * found);
        if (distance < least || (distance == least && llabs(q) > llabs(found))) found = q;
    }
    return (int32_t)found;
}

/* nearest to N/2^(b+1) */
static int32_t coefficient(const int32_t *u, uint32_t b) { return nearest(table_sum(u, b), (int64_t)2 << b); }

/* Both sides are exact to far less than the 10^-9 that is allowed for long double. */
int within_distance(int64_t y, long double eighths, uint32_t b) {
    return fabsl((long double)y - eighths) <= 0.5L + ldexpl(DISTANCE, -(int)b) + 1e-9L;
}

Answer second_round(const int32_t *elements, size_t n, uint32_t b, int32_t *coefficients, size_t m) {
    if (n != SET || m != BLOCK) return (Answer){BAD_LENGTH, 0};
    if (width_index(b) == WIDTHS) return (Answer){BAD_WIDTH, 0};
    if (first_above(elements) < BLOCK) return (Answer){BAD_MAGNITUDES, first_above(elements)};
    for (int p = 0; p < BLOCK; p++) coefficients[p] = coefficient(elements + 8 * p, b);
    return (Answer){ACCEPTED, 0};
}

/* Reoriented sets. */

Answer second_reorient(const int32_t *elements, size_t n, uint32_t orientation, int32_t *output, size_t m) {
    if (n != SET || m != SET) return (Answer){BAD_LENGTH, 0};
    if (orientation >= ORIENTATIONS) return (Answer){BAD_ORIENTATION, 0};
    if (first_above(elements) < BLOCK) return (Answer){BAD_MAGNITUDES, first_above(elements)};
    for (int k = 0; k < SET; k++) {
        Source source = sources[orientation][k / 8];
        output[k] = source.sign * elements[8 * source.place + k % 8];
    }
    return (Answer){ACCEPTED, 0};
}

static int has_indices(uint32_t orientation, const int32_t *indices) {
    int32_t made[BLOCK];
    make_indices(orientation, made);
    return memcmp(made, indices, sizeof made) == 0;
}

/* the orientation that takes every sample to where the two take it, one after the other */
Answer second_compose_orientations(uint32_t first, uint32_t second) {
    int32_t once[BLOCK], twice[BLOCK];
    uint32_t composed = 0;
    if (first >= ORIENTATIONS || second >= ORIENTATIONS) return (Answer){BAD_ORIENTATION, 0};
    make_indices(first, once);
    reorient_samples(once, second, twice);
    while (composed < ORIENTATIONS && !has_indices(composed, twice)) composed++;
    return (Answer){ACCEPTED, composed};
}

/* Quantized values. */

/* what is asked before the numbers: the lengths, and the steps in the order of their list */
static Answer judge_steps(size_t n, const uint32_t *steps, size_t k, size_t m) {
    if (n != BLOCK || k != BLOCK || m != BLOCK) return (Answer){BAD_LENGTH, 0};
    for (size_t i = 0; i < BLOCK; i++)
        if (steps[i] < 1 || steps[i] > MOST_STEP) return (Answer){BAD_STEP, i};
    return (Answer){ACCEPTED, 0};
}

/* 8 × the step of the place p */
static int64_t divisor(const uint32_t *steps, size_t p) { return 8 * (int64_t)steps[in_zigzag[p]]; }

/* 64 coefficients: the first that is beyond the limit */
static Answer judge_coefficients(const int32_t *coefficients) {
    for (size_t p = 0; p < BLOCK; p++)
        if (coefficients[p] < -MOST_COEFFICIENT || coefficients[p] > MOST_COEFFICIENT) return (Answer){BAD_COEFFICIENT, p};
    return (Answer){ACCEPTED, 0};
}

Answer second_quantize(const int32_t *coefficients, size_t n, const uint32_t *steps, size_t k, int32_t *quantized, size_t m) {
    Answer answer = judge_steps(n, steps, k, m);
    if (answer.number == ACCEPTED) answer = judge_coefficients(coefficients);
    if (answer.number != ACCEPTED) return answer;
    for (size_t p = 0; p < BLOCK; p++) quantized[p] = nearest(coefficients[p], divisor(steps, p));
    return answer;
}

Answer second_dequantize(const int32_t *quantized, size_t n, const uint32_t *steps, size_t k, int32_t *coefficients, size_t m) {
    int64_t products[BLOCK];
    Answer answer = judge_steps(n, steps, k, m);
    if (answer.number != ACCEPTED) return answer;
    for (size_t p = 0; p < BLOCK; p++) {
        products[p] = quantized[p] * divisor(steps, p);
        if (products[p] < -MOST_DEQUANTIZED || products[p] > MOST_DEQUANTIZED) return (Answer){BAD_COEFFICIENT, p};
    }
    for (size_t p = 0; p < BLOCK; p++) coefficients[p] = (int32_t)products[p];
    return answer;
}

/* Floats. */

/* The bits of y / 2^e, of a y below 2^24 in magnitude: the sign; the exponent, which is 127 for a number from 1 to below 2; and the 23 bits behind
 * the highest one of |y|. None is lost: |y| is doubled until it has 24, and the exponent makes up for it. Zero has no bits. */
static uint32_t float_bits(int32_t y, uint32_t e) {
    uint32_t sign = y < 0, exponent = 127 + 23 - e, magnitude = (uint32_t)abs(y);
    if (y == 0) return 0;
    for (; magnitude < 1u << 23; magnitude *= 2) exponent--;
    return sign << 31 | exponent << 23 | (magnitude - (1u << 23));
}

/* y/8 */
static uint32_t coefficient_float(int32_t y) { return float_bits(y, 3); }

/* what is asked of a block of coefficients of which m floats are made */
static Answer judge_block(const int32_t *coefficients, size_t n, size_t m) {
    return n != BLOCK || m != BLOCK ? (Answer){BAD_LENGTH, 0} : judge_coefficients(coefficients);
}

Answer second_to_floats(const int32_t *coefficients, size_t n, uint32_t *floats, size_t m) {
    Answer answer = judge_block(coefficients, n, m);
    for (size_t p = 0; p < BLOCK && answer.number == ACCEPTED; p++) floats[p] = coefficient_float(coefficients[p]);
    return answer;
}

/* how many of the coefficients from 1 on are smaller than the one at p, or as large and behind it */
static int behind(const int32_t *coefficients, size_t p) {
    int count = 0;
    for (size_t q = 1; q < BLOCK; q++)
        count += abs(coefficients[q]) < abs(coefficients[p]) || (abs(coefficients[q]) == abs(coefficients[p]) && q > p);
    return count;
}

/* Of the coefficients from 1 on, the one that has the 62 others behind it. A block is flat where it is 0. */
Summary second_summary(const int32_t *coefficients, size_t n) {
    Answer answer = judge_block(coefficients, n, BLOCK);
    size_t largest = 1;
    if (answer.number != ACCEPTED) return (Summary){answer, 0, 0, 0};
    while (behind(coefficients, largest) < BLOCK - 2) largest++;
    return (Summary){answer, coefficients[largest] != 0, float_bits(coefficients[0], 6), coefficient_float(coefficients[largest])};
}

/* Sheets. */

uint32_t kind(uint32_t w) { return w >> 28; }
uint32_t payload(uint32_t w) { return w & 0x0FFFFFFF; }
int32_t payload_value(uint32_t w) { return (int32_t)payload(w) - (payload(w) < 1u << 27 ? 0 : 1 << 28); }
uint32_t across(uint32_t head) { return payload(head) >> 14; }
uint32_t down(uint32_t head) { return head & 0x3FFF; }
uint32_t make_word(uint32_t k, int64_t v) { return k << 28 | payload((uint32_t)v); }
uint32_t make_head(uint32_t k, uint32_t a, uint32_t d) { return k << 28 | a << 14 | d; }
size_t sheet_count(uint32_t blocks) { return 2 + (size_t)BLOCK * blocks; }

/* the blocks that a head announces, or 0 if it is none of an allowed sheet */
static uint32_t announced(const Format *format, uint32_t head) {
    uint32_t blocks = across(head) * down(head);
    return kind(head) == format->head && blocks <= MOST_BLOCKS ? blocks : 0;
}

/* what is wrong with a word after the head */
static uint32_t fault(const Format *format, uint32_t w, int is_end, uint32_t blocks) {
    int32_t value = payload_value(w);
    if (kind(w) != (is_end ? END : format->body)) return BAD_WORDS;
    if (is_end) return payload(w) != blocks ? BAD_END : ACCEPTED;
    return value < format->lowest || value > format->highest ? format->cause : ACCEPTED;
}

/* the head, and the count of words */
static Answer judge_size(const Format *format, const uint32_t *words, size_t n) {
    uint32_t blocks = n == 0 ? 0 : announced(format, words[0]);
    if (blocks == 0) return (Answer){BAD_HEAD, 0};
    return (Answer){n != sheet_count(blocks) ? BAD_WORDS : ACCEPTED, n};
}

/* the words after the head, of a sheet of the right count */
static Answer judge_words(const Format *format, const uint32_t *words, size_t n) {
    uint32_t blocks = announced(format, words[0]);
    for (size_t i = 1; i < n; i++) {
        uint32_t number = fault(format, words[i], i == n - 1, blocks);
        if (number != ACCEPTED) return (Answer){number, i};
    }
    return (Answer){ACCEPTED, n};
}

static Answer judge_sheet(const uint32_t *words, size_t n, uint32_t b, size_t k, size_t m) {
    Answer size = judge_size(&sample_format, words, n);
    if (width_index(b) == WIDTHS) return (Answer){BAD_WIDTH, 0};
    if (size.number != ACCEPTED) return size;
    if (k != SET || m < n) return (Answer){BAD_LENGTH, 0};
    return judge_words(&sample_format, words, n);
}

/* The sums are those of the words read and of the words written. */
SheetAnswer second_sheet(const uint32_t *words, size_t n, uint32_t b, int32_t *scratch, size_t k, uint32_t *output, size_t m) {
    SheetAnswer made = {judge_sheet(words, n, b, k, m), 0, 0};
    if (made.answer.number != ACCEPTED) return made;
    output[0] = make_head(COEFFICIENT_HEAD, across(words[0]), down(words[0]));
    for (size_t first = 1; first < n - 1; first += BLOCK) {
        int32_t samples[BLOCK];
        for (size_t q = 0; q < BLOCK; q++) samples[q] = payload_value(words[first + q]);
        make_elements(samples, scratch);
        for (size_t p = 0; p < BLOCK; p++) output[first + p] = make_word(COEFFICIENT, coefficient(scratch + 8 * p, b));
    }
    output[n - 1] = words[n - 1];
    for (size_t i = 1; i < n - 1; i++) made.sample_sum += payload_value(words[i]);
    for (size_t i = 1; i < n - 1; i += BLOCK) made.first_sum += payload_value(output[i]);
    return made;
}

Range second_sheet_range(const uint32_t *words, size_t n) {
    int32_t lowest = MOST_COEFFICIENT, highest = -MOST_COEFFICIENT;
    Answer answer = judge_size(&coefficient_format, words, n);
    if (answer.number == ACCEPTED) answer = judge_words(&coefficient_format, words, n);
    if (answer.number != ACCEPTED) return (Range){answer, 0, 0};
    for (size_t i = 1; i < n - 1; i++) {
        int32_t y = payload_value(words[i]);
        if (y < lowest) lowest = y;
        if (y > highest) highest = y;
    }
    return (Range){{ACCEPTED, 0}, coefficient_float(lowest), coefficient_float(highest)};
}
