/* Sheets of words for the tests, and the cases that the library's jobs and the programs all have to pass. */
#ifndef SHEET_CASES_H
#define SHEET_CASES_H

#include "cases.h"

enum { ROOM = 10000 }; /* more words than any sheet has */
typedef struct { const Format *format; size_t count; uint32_t words[ROOM]; } Sheet;

/* A sheet of samples; a sheet of a format. Coefficients of a pattern are the samples of that pattern, spread up to their limit. */
void make_sheet(Sheet *sheet, uint32_t a, uint32_t d, enum pattern pattern);
void make_sheet_of(const Format *format, Sheet *sheet, uint32_t a, uint32_t d, enum pattern pattern);

/* Two blocks, each the negative of the other, whose N at (0,1) is a half at the width b. Blocks at random hardly ever have one at 20 and 26. */
void make_halves(Sheet *sheet, uint32_t b);

/* A column of blocks whose samples sum to this, which so many can have. They are as equal as they can be, so that the lowest sum is that of the
 * lowest sample alone; or, mixed, an amount at random has gone from each to one at random, as far as both stay in range. */
void make_with_sum(Sheet *sheet, uint32_t blocks, int32_t sum, int mixed);

/* Cuts the sheet, or makes it longer by words as its body has them. */
void set_count(Sheet *sheet, size_t count);

/* Changes one bit, one word or the count, or two of these. */
void damage(Sheet *sheet);

/* What is under test: a function that runs it on a sheet, holds it to the second program and returns that program's answer; the format of its
 * sheets; the width at which it transforms them, or 0 if it does not; and the most words that it looks at. The place of an accepted sheet is the
 * count of its words if it is transformed, and otherwise 0. */
typedef struct {
    Answer (*check)(const Sheet *sheet);
    const Format *format;
    uint32_t b;
    size_t most_words;
} Job;

/* Runs the cases: sheets of every size, and each cause of refusal, alone and with another; for what transforms sheets also every sample, the highest
 * and lowest coefficients, and halves. */
void sheet_cases(const Job *under_test);

#endif
