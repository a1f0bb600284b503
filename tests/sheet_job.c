/* Holds the library's sheet job to the second program, call by call: the answer, both sums, and the words, the scratch and the output with the guard
 * numbers about them. */
#include "weld_dct.h"
#include "sheet_cases.h"
#include <stdio.h>
#include <string.h>

static Pair words, scratch, output; /* the buffers of the last call */
static int answered[ANSWERS];
static uint32_t width; /* at which the cases of sheet_cases.h are run */

static void expect_sum(const char *of, int64_t wanted, int64_t sum) {
    expect(sum == wanted, "sheet gives %lld as the sum of %s, expected is %lld", (long long)sum, of, (long long)wanted);
}

static void expect_sheet_answer(SheetAnswer wanted, struct weld_dct_sheet_answer answer) {
    expect_answer("sheet", wanted.answer, answer.number, answer.place);
    expect_sum("samples", wanted.sample_sum, answer.sample_sum);
    expect_sum("first coefficients", wanted.first_sum, answer.first_sum);
}

/* the call with n words, of which the sheet's are the first, a scratch of k numbers and an output of m */
static SheetAnswer check_lengths(const Sheet *sheet, size_t n, uint32_t b, size_t k, size_t m) {
    fill(&words, "words", sheet->words, sheet->count, n);
    fill(&scratch, "scratch", NULL, 0, k);
    fill(&output, "output", NULL, 0, m);
    SheetAnswer wanted = second_sheet((uint32_t *)words.second + GUARD, n, b, scratch.second + GUARD, k, (uint32_t *)output.second + GUARD, m);
    expect_sheet_answer(wanted,
        weld_dct_sheet((uint32_t *)words.library + GUARD, n, b, scratch.library + GUARD, k, (uint32_t *)output.library + GUARD, m));
    expect(wanted.sample_sum == wanted.first_sum, "the two sums of the second program differ");
    compare(&words, "sheet");
    compare(&scratch, "sheet");
    compare(&output, "sheet");
    answered[wanted.answer.number]++;
    return wanted;
}

/* output as long as the sheet, or longer */
static Answer check_sheet(const Sheet *sheet) {
    return check_lengths(sheet, sheet->count, width, SET, sheet->count + (size_t)any(0, 3) * 21).answer;
}

/* Each cause with each, and the causes in their order: b, the head, the count, the lengths of scratch and output, a faulty word. */

enum { HEADS = 3, FAULTS = 5, COUNTS = 6, SCRATCHES = 8, OUTPUTS = 6 };

/* a column of blocks: head 0 and fault 0 are as they should be */
static void make_faulty(Sheet *sheet, uint32_t blocks, int head, int fault) {
    make_sheet(sheet, 1, blocks, SMOOTH);
    size_t end = sheet->count - 1;
    if (head == 1) sheet->words[0] = make_head(COEFFICIENT_HEAD, 1, blocks);
    if (head == 2) sheet->words[0] = make_head(SAMPLE_HEAD, 1, 0);
    if (fault == 1) sheet->words[1] = make_word(COEFFICIENT, 0);
    if (fault == 2 || fault == 4) sheet->words[end - 1] = make_word(SAMPLE, LOWEST - 1);
    if (fault == 3 || fault == 4) sheet->words[end] = make_word(END, 0);
}

/* every length of each buffer; those of the output are about the count of the words */
static void check_all_lengths(uint32_t blocks, int head, int fault, uint32_t b) {
    static const size_t scratches[SCRATCHES] = {0, 1, SET - 1, SET, SET + 1, SET + 256, SET + 65536, LONGEST};
    size_t full = sheet_count(blocks), counts[COUNTS] = {0, 1, full - 1, full, full + 1, LONGEST};
    Sheet sheet;
    make_faulty(&sheet, blocks, head, fault);
    for (int l = 0; l < COUNTS * SCRATCHES * OUTPUTS; l++) {
        size_t n = counts[l / OUTPUTS / SCRATCHES], k = scratches[l / OUTPUTS % SCRATCHES];
        size_t outputs[OUTPUTS] = {0, 1, n == 0 ? 0 : n - 1, n, n + (n < LONGEST), LONGEST}, m = outputs[l % OUTPUTS];
        begin("%zu words, scratch %zu, output %zu, of %u blocks, head %d, fault %d, b = %u", n, k, m, (unsigned)blocks, head, fault, (unsigned)b);
        check_lengths(&sheet, n, b, k, m);
    }
}

static void orders(void) {
    static const uint32_t blocks[] = {1, 2, 128};
    for (int n = 0; n < (int)COUNT(blocks) * HEADS * FAULTS; n++) {
        int head = n % HEADS, fault = n / HEADS % FAULTS;
        check_all_lengths(blocks[n / HEADS / FAULTS], head, fault, widths[n / HEADS % WIDTHS]);
        check_all_lengths(blocks[n / HEADS / FAULTS], head, fault, 12);
    }
}

static void no_widths(void) {
    Sheet sheet;
    for (int n = 0; n < NO_WIDTHS * HEADS * FAULTS; n++) {
        uint32_t b = no_width(n / HEADS / FAULTS);
        make_faulty(&sheet, 2, n % HEADS, n / HEADS % FAULTS);
        begin("b = %u, head %d, fault %d", (unsigned)b, n % HEADS, n / HEADS % FAULTS);
        expect(check_lengths(&sheet, sheet.count, b, SET, sheet.count).answer.number == BAD_WIDTH, "the second program has another answer");
    }
}

/* lengths that are right, or too short, in 32 bits: the whole length counts, and is named; what is not to be written is as it was */
static void lengths_above_32_bits(void) {
    static const int32_t zeros[SET];
    Sheet sheet;
    int32_t *huge = huge_buffer(), scratch[SET] = {0}, elements[SET];
    uint32_t output[66] = {0}, wanted[66];
    size_t many = ABOVE_32_BITS + 66;
    begin("a length above 32 bits");
    make_sheet(&sheet, 1, 1, ANY);
    SheetAnswer made = second_sheet(sheet.words, 66, 26, elements, SET, wanted, 66), accepted = {{ACCEPTED, 66}, made.sample_sum, made.first_sum};
    expect_sheet_answer((SheetAnswer){{BAD_LENGTH, 0}, 0, 0}, weld_dct_sheet(sheet.words, 66, 26, huge, ABOVE_32_BITS + SET, output, 66));
    expect(memcmp(output, zeros, sizeof output) == 0 && memcmp(huge, zeros, sizeof zeros) == 0, "a refused call writes into a buffer");
    expect_sheet_answer(accepted, weld_dct_sheet(sheet.words, 66, 26, scratch, SET, (uint32_t *)huge, ABOVE_32_BITS));
    expect(memcmp(huge, wanted, sizeof wanted) == 0 && memcmp(huge + 66, zeros, sizeof zeros) == 0, "the output is another");
    expect(memcmp(scratch, elements, sizeof elements) == 0, "the scratch is another");
    memcpy(huge, sheet.words, 66 * sizeof sheet.words[0]);
    expect_sheet_answer((SheetAnswer){{BAD_WORDS, many}, 0, 0}, weld_dct_sheet((uint32_t *)huge, many, 26, scratch, SET, output, 66));
    expect(memcmp(output, zeros, sizeof output) == 0 && memcmp(scratch, elements, sizeof elements) == 0, "a refused call writes into a buffer");
}

static void random_sheets(void) {
    Sheet sheet;
    for (int n = 0; n < 8000; n++) {
        uint32_t a = (uint32_t)any(1, n % 50 == 0 ? 16 : 4), d = (uint32_t)any(1, n % 50 == 0 ? 8 : 4), b = widths[any(0, WIDTHS - 1)];
        enum pattern pattern = (enum pattern)any(0, PATTERNS - 1);
        make_sheet(&sheet, a, d, pattern);
        if (n % 4 != 0) damage(&sheet);
        begin("random sheet %d, made as %u by %u blocks of pattern %u, b = %u", n, (unsigned)a, (unsigned)d, (unsigned)pattern, (unsigned)b);
        check_lengths(&sheet, sheet.count, b, n % 16 == 1 ? (size_t)any(0, 2 * SET) : SET, n % 16 == 2 ? (size_t)any(0, ROOM) : sheet.count);
    }
}

/* the sheet with all samples negated, all in range: its coefficients and sums are negated, and all else is the same */
static void check_negative(const Sheet *sheet, uint32_t b) {
    static uint32_t positive[ROOM];
    Sheet negative = *sheet;
    size_t end = sheet->count - 1;
    for (size_t i = 1; i < end; i++) negative.words[i] = make_word(SAMPLE, -payload_value(sheet->words[i]));
    SheetAnswer one = check_lengths(sheet, sheet->count, b, SET, sheet->count);
    memcpy(positive, output.library + GUARD, sheet->count * sizeof positive[0]);
    SheetAnswer other = check_lengths(&negative, sheet->count, b, SET, sheet->count);
    expect(one.answer.number == ACCEPTED && other.answer.number == ACCEPTED, "the sheet is refused, or its negative");
    expect(one.sample_sum == -other.sample_sum && one.first_sum == -other.first_sum, "the sums are not negated");
    for (size_t i = 0; i <= end; i++) {
        uint32_t w = i == 0 || i == end ? positive[i] : make_word(COEFFICIENT, -payload_value(positive[i])), came = (uint32_t)output.library[GUARD + i];
        expect(came == w, "the word at index %zu is %08X, expected is %08X", i, (unsigned)came, (unsigned)w);
    }
}

static void negatives(void) {
    Sheet sheet;
    for (int n = 0; n < 400; n++) {
        uint32_t b = widths[n % WIDTHS];
        begin("a sheet and its negative, %d, b = %u", n, (unsigned)b);
        make_sheet(&sheet, (uint32_t)any(1, 4), (uint32_t)any(1, 4), (enum pattern)(n % PATTERNS));
        for (size_t i = 1; i < sheet.count - 1; i++)
            if (payload_value(sheet.words[i]) == LOWEST) sheet.words[i] = make_word(SAMPLE, LOWEST + 1);
        check_negative(&sheet, b);
    }
    for (int w = 0; w < WIDTHS; w++) {
        begin("a sheet of halves and its negative, b = %u", (unsigned)widths[w]);
        make_halves(&sheet, widths[w]);
        check_negative(&sheet, widths[w]);
    }
}

/* Sums that are known beforehand, to which the second program is held, too: that of 01's sheet of ones, 0, the lowest and the highest of one block
 * and of the most, and others, among them some that are no 32-bit floats. Samples are as equal as they can be, or mixed. */
static void known_sums(void) {
    static const struct { uint32_t blocks; int32_t sum; } cases[] = {{1, 64}, {1, 0}, {MOST_BLOCKS, 0}, {1, -2097152}, {1, 2097088},
        {MOST_BLOCKS, -268435456}, {MOST_BLOCKS, 268427264}, {MOST_BLOCKS, -268435455}, {MOST_BLOCKS, 268427263}, {1, -1}, {1, 1}, {2, -1}, {2, 1},
        {3, -1000}, {3, 1000}, {1, -131072}, {1, 131008}, {127, -9999999}, {127, 9999999}, {MOST_BLOCKS, -16777216}, {MOST_BLOCKS, 16769024},
        {9, -16777217}, {9, 16777217}, {127, -99999999}, {127, 99999999}, {MOST_BLOCKS, -134217729}, {MOST_BLOCKS, 134217729}};
    Sheet sheet;
    for (int n = 0; n < (int)COUNT(cases) * WIDTHS * 2; n++) {
        uint32_t blocks = cases[n / WIDTHS / 2].blocks, b = widths[n / 2 % WIDTHS];
        int32_t sum = cases[n / WIDTHS / 2].sum, mixed = n % 2;
        begin("%u blocks of samples that sum to %d, mixed %d, b = %u", (unsigned)blocks, (int)sum, (int)mixed, (unsigned)b);
        make_with_sum(&sheet, blocks, sum, mixed);
        SheetAnswer wanted = check_lengths(&sheet, sheet.count, b, SET, sheet.count);
        expect(wanted.answer.number == ACCEPTED && wanted.sample_sum == sum && wanted.first_sum == sum, "the second program has other sums");
    }
}

int main(void) {
    int calls = 0;
    start("sheet_job");
    for (int w = 0; w < WIDTHS; w++) {
        width = widths[w];
        sheet_cases(&(Job){check_sheet, &sample_format, width, SIZE_MAX});
    }
    orders();
    no_widths();
    lengths_above_32_bits();
    random_sheets();
    negatives();
    known_sums();
    begin("end");
    for (int n = 0; n < ANSWERS; n++) {
        int possible = n <= BAD_END && n != BAD_MAGNITUDES && n != NO_BLOCK;
        expect((answered[n] > 0) == possible, "the answer %d came %d times", n, answered[n]);
        calls += answered[n];
    }
    printf("sheet_job: %d calls as 01 and 02 have them, %d accepted, "
           "%d refused for cause 1, %d for 2, %d for 3, %d for 6, %d for 7, %d for 8; seed %llu\n",
           calls, answered[ACCEPTED], answered[BAD_LENGTH], answered[BAD_SAMPLE], answered[BAD_WIDTH], answered[BAD_HEAD], answered[BAD_WORDS],
           answered[BAD_END], (unsigned long long)seed);
    return 0;
}
