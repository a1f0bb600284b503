/* How much stack the functions of the library take: each runs on a thread whose stack is painted, and as far as the paint is gone it was used.
 * Called with the limit, in KB; fails where a function takes more. */
#define _POSIX_C_SOURCE 200809L
#include "weld_dct.h"
#include "sheet_cases.h"
#include <pthread.h>
#include <stdio.h>
#include <stdlib.h>
#include <string.h>

enum { STACK = 1 << 20, MOST_CALLS = 32 };

static _Alignas(4096) unsigned char stack[STACK];
static const unsigned char *top;     /* where the stack stood before the calls of a job */
static uint32_t numbers[MOST_CALLS]; /* what they answered */
static int calls;

static int32_t blocks[PATTERNS][BLOCK], bad_block[BLOCK];
static int32_t sets[PATTERNS][SET], any_set[SET], bad_set[SET]; /* the blocks' sets, an accepted one that no block has, one that is not accepted */
static uint32_t steps[BLOCK], bad_steps[BLOCK];
static int32_t any_coefficients[BLOCK], flat_coefficients[BLOCK], bad_coefficients[BLOCK], any_values[BLOCK], bad_values[BLOCK];
static Sheet small, large, bad_sheet, small_range, large_range, bad_range, bad_range_end;
static int32_t elements[SET], samples[BLOCK], coefficients[BLOCK], reoriented[SET], quantized[BLOCK], scratch[SET];
static uint32_t output[ROOM];
static float floats[BLOCK];

static void note(uint32_t number) { numbers[calls++] = number; }

static void answered(struct weld_dct_answer answer) { note(answer.number); }

static void call_forward(void) {
    for (int n = 0; n < PATTERNS; n++) answered(weld_dct_forward(blocks[n], BLOCK, elements, SET));
    answered(weld_dct_forward(bad_block, BLOCK, elements, SET));
}

static void call_back(void) {
    for (int n = 0; n < PATTERNS; n++) answered(weld_dct_back(sets[n], SET, samples, BLOCK));
    answered(weld_dct_back(any_set, SET, samples, BLOCK));
    answered(weld_dct_back(bad_set, SET, samples, BLOCK));
}

static void call_round(void) {
    for (int w = 0; w < WIDTHS; w++) {
        answered(weld_dct_round(sets[SMOOTH], SET, widths[w], coefficients, BLOCK));
        answered(weld_dct_round(any_set, SET, widths[w], coefficients, BLOCK));
    }
    answered(weld_dct_round(bad_set, SET, widths[0], coefficients, BLOCK));
}

static void call_reorient(void) {
    for (uint32_t orientation = 0; orientation < ORIENTATIONS; orientation++) {
        answered(weld_dct_reorient(sets[SMOOTH], SET, orientation, reoriented, SET));
        answered(weld_dct_reorient(any_set, SET, orientation, reoriented, SET));
    }
    answered(weld_dct_reorient(any_set, SET, ORIENTATIONS, reoriented, SET));
    answered(weld_dct_reorient(bad_set, SET, 0, reoriented, SET));
}

static void call_compose(void) {
    for (uint32_t orientation = 0; orientation < ORIENTATIONS; orientation++) {
        answered(weld_dct_compose_orientations(1, orientation));
        answered(weld_dct_compose_orientations(orientation, 4));
    }
    answered(weld_dct_compose_orientations(0, ORIENTATIONS));
    answered(weld_dct_compose_orientations(ORIENTATIONS, 0));
}

static void call_quantize(void) {
    answered(weld_dct_quantize(any_coefficients, BLOCK, steps, BLOCK, quantized, BLOCK));
    answered(weld_dct_quantize(any_coefficients, BLOCK, bad_steps, BLOCK, quantized, BLOCK));
    answered(weld_dct_quantize(bad_coefficients, BLOCK, steps, BLOCK, quantized, BLOCK));
}

static void call_dequantize(void) {
    answered(weld_dct_dequantize(any_values, BLOCK, steps, BLOCK, coefficients, BLOCK));
    answered(weld_dct_dequantize(any_values, BLOCK, bad_steps, BLOCK, coefficients, BLOCK));
    answered(weld_dct_dequantize(bad_values, BLOCK, steps, BLOCK, coefficients, BLOCK));
}

static void call_to_floats(void) {
    answered(weld_dct_to_floats(any_coefficients, BLOCK, floats, BLOCK));
    answered(weld_dct_to_floats(any_coefficients, BLOCK, floats, BLOCK - 1));
    answered(weld_dct_to_floats(bad_coefficients, BLOCK, floats, BLOCK));
}

static void call_summary(void) {
    note(weld_dct_summary(any_coefficients, BLOCK).number);
    note(weld_dct_summary(flat_coefficients, BLOCK).number);
    note(weld_dct_summary(any_coefficients, BLOCK - 1).number);
    note(weld_dct_summary(bad_coefficients, BLOCK).number);
}

static void call_sheet(void) {
    for (int w = 0; w < WIDTHS; w++) {
        note(weld_dct_sheet(small.words, small.count, widths[w], scratch, SET, output, ROOM).number);
        note(weld_dct_sheet(large.words, large.count, widths[w], scratch, SET, output, ROOM).number);
    }
    note(weld_dct_sheet(bad_sheet.words, bad_sheet.count, widths[0], scratch, SET, output, ROOM).number);
}

static void call_sheet_range(void) {
    note(weld_dct_sheet_range(small_range.words, small_range.count).number);
    note(weld_dct_sheet_range(large_range.words, large_range.count).number);
    note(weld_dct_sheet_range(bad_range.words, bad_range.count).number);
    note(weld_dct_sheet_range(bad_range_end.words, bad_range_end.count).number);
}

static const struct {
    const char *name;
    void (*call)(void);
    uint32_t refusals[2]; /* of the last calls; those before are accepted */
    int refused;
} jobs[] = {
    {"forward", call_forward, {BAD_SAMPLE}, 1},
    {"back", call_back, {NO_BLOCK, BAD_MAGNITUDES}, 2},
    {"round", call_round, {BAD_MAGNITUDES}, 1},
    {"reorient", call_reorient, {BAD_ORIENTATION, BAD_MAGNITUDES}, 2},
    {"compose_orientations", call_compose, {BAD_ORIENTATION, BAD_ORIENTATION}, 2},
    {"quantize", call_quantize, {BAD_STEP, BAD_COEFFICIENT}, 2},
    {"dequantize", call_dequantize, {BAD_STEP, BAD_COEFFICIENT}, 2},
    {"to_floats", call_to_floats, {BAD_LENGTH, BAD_COEFFICIENT}, 2},
    {"summary", call_summary, {BAD_LENGTH, BAD_COEFFICIENT}, 2},
    {"sheet", call_sheet, {BAD_END}, 1},
    {"sheet_range", call_sheet_range, {BAD_COEFFICIENT, BAD_END}, 2},
};

static void *run(void *n) {
    top = __builtin_frame_address(0);
    jobs[*(const size_t *)n].call();
    return NULL;
}

/* The bytes that the calls of job n take, on a stack of this paint. */
static size_t taken(size_t n, unsigned char paint) {
    pthread_attr_t attributes;
    pthread_t thread;
    size_t lowest = 0;
    memset(stack, paint, STACK);
    calls = 0;
    expect(pthread_attr_init(&attributes) == 0 && pthread_attr_setstack(&attributes, stack, STACK) == 0
               && pthread_create(&thread, &attributes, run, &n) == 0 && pthread_join(thread, NULL) == 0,
           "no thread on a painted stack");
    pthread_attr_destroy(&attributes);
    for (int k = 0; k < calls; k++) {
        int last = k - (calls - jobs[n].refused);
        expect(numbers[k] == (last < 0 ? (uint32_t)ACCEPTED : jobs[n].refusals[last]), "call %d answers %u", k, (unsigned)numbers[k]);
    }
    while (lowest < STACK && stack[lowest] == paint) lowest++;
    expect(lowest > 0 && stack + lowest < top, "the stack is used up, or not used at all");
    return (size_t)(top - (stack + lowest));
}

static void prepare_sheets(void) {
    make_sheet(&small, 1, 1, ANY);
    make_sheet(&large, 4, MOST_BLOCKS / 4, SMOOTH);
    bad_sheet = small;
    bad_sheet.words[bad_sheet.count - 1]++;
    make_sheet_of(&coefficient_format, &small_range, 1, 1, ANY);
    make_sheet_of(&coefficient_format, &large_range, 4, MOST_BLOCKS / 4, SMOOTH);
    bad_range = bad_range_end = large_range;
    bad_range.words[bad_range.count - 2] = make_word(COEFFICIENT, MOST_COEFFICIENT + 1);
    bad_range_end.words[bad_range_end.count - 1]++;
}

static void prepare(void) {
    for (int n = 0; n < PATTERNS; n++) {
        make_samples(blocks[n], 1, 1, (enum pattern)n);
        second_forward(blocks[n], BLOCK, sets[n], SET);
    }
    memcpy(bad_block, blocks[ANY], sizeof bad_block);
    bad_block[BLOCK - 1] = HIGHEST + 1;
    for (int n = 0; n < SET; n++) any_set[n] = any(-MOST_MAGNITUDES / 8, MOST_MAGNITUDES / 8);
    memcpy(bad_set, any_set, sizeof bad_set);
    bad_set[SET - 1] = MOST_MAGNITUDES + 1;
    for (int n = 0; n < BLOCK; n++) {
        steps[n] = (uint32_t)any(1, MOST_STEP);
        any_coefficients[n] = any(-MOST_COEFFICIENT, MOST_COEFFICIENT);
    }
    memcpy(bad_steps, steps, sizeof bad_steps);
    bad_steps[BLOCK - 1] = 0;
    flat_coefficients[0] = any_coefficients[0];
    memcpy(bad_coefficients, any_coefficients, sizeof bad_coefficients);
    bad_coefficients[BLOCK - 1] = MOST_COEFFICIENT + 1;
    second_quantize(any_coefficients, BLOCK, steps, BLOCK, any_values, BLOCK);
    memcpy(bad_values, any_values, sizeof bad_values);
    bad_values[BLOCK - 1] = INT32_MAX;
    prepare_sheets();
}

int main(int count, char **words) {
    start("stack");
    expect(count == 2, "it is called with the limit, in KB");
    size_t limit = 1024 * (size_t)atoi(words[1]);
    prepare();
    char line[300] = "";
    for (size_t n = 0; n < COUNT(jobs); n++) {
        begin("%s", jobs[n].name);
        calls = 0;
        jobs[n].call(); /* so that the functions of the C library are found, which takes stack itself */
        size_t first = taken(n, 0xA5), second = taken(n, 0x5A), most = first < second ? second : first;
        expect(most <= limit, "%zu bytes of stack are taken, and no more than %zu are promised", most, limit);
        snprintf(line + strlen(line), sizeof line - strlen(line), "%s%s %zu", n ? ", " : "", jobs[n].name, most);
    }
    printf("stack: bytes taken by %s; no more than %zu\n", line, limit);
    return 0;
}
