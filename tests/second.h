/* The second program: the jobs as 01 and 02 define them, made from these and from T.81's formula and zig-zag order (ITU-T T.81, A.3.3 and Figure A.6)
 * alone. It shares nothing with the library. A job takes buffers of any lengths, leaves in them what the call has to leave there, and returns the
 * answer. Its floats are their bits, as IEEE 754 lays down binary32; it has no other. */
#ifndef SECOND_H
#define SECOND_H

#include <stddef.h>
#include <stdint.h>

/* 01's numbers, as changed by 02, and 02's. */
enum { BLOCK = 64, SET = 512 };                  /* the numbers of a block, and of its 64 elements */
enum { LOWEST = -32768, HIGHEST = -LOWEST - 1 }; /* samples */
enum { MOST_MAGNITUDES = 2 * BLOCK * -LOWEST };  /* those of a block of the lowest sample alone, at (0,0) */
enum { DISTANCE = MOST_MAGNITUDES / 4 };         /* of rounding: 1/2 and, over 2^b, this */
enum { MOST_BLOCKS = 128 };
enum { SAMPLE_HEAD = 1, SAMPLE = 2, COEFFICIENT = 3, COEFFICIENT_HEAD = 4, END = 15 }; /* kinds of words */
enum { ORIENTATIONS = 8 };
enum { MOST_STEP = 1024, MOST_COEFFICIENT = 4194303, MOST_DEQUANTIZED = 4198399 };
enum { WIDTHS = 3 };
extern const uint32_t widths[WIDTHS];

/* The causes, by their numbers: 01's, and from BAD_ORIENTATION on 02's. */
enum { ACCEPTED, BAD_LENGTH, BAD_SAMPLE, BAD_WIDTH, BAD_MAGNITUDES, NO_BLOCK, BAD_HEAD, BAD_WORDS, BAD_END, BAD_ORIENTATION, BAD_STEP,
    BAD_COEFFICIENT, ANSWERS };

typedef struct { uint32_t number; size_t place; } Answer;
typedef struct { Answer answer; uint32_t textured, mean, largest; } Summary;
typedef struct { Answer answer; int64_t sample_sum, first_sum; } SheetAnswer; /* sums of samples, and of first coefficients in eighths */
typedef struct { Answer answer; uint32_t lowest, highest; } Range;

/* Makes the tables; comes before all else. False if a table number, which is rounded from the cosine itself, breaks 01's rule of fractions, or if an
 * element of a reoriented block is not one of the block's, or its negative, or is so in more than one way. */
int make_second(void);

Answer second_forward(const int32_t *samples, size_t n, int32_t *elements, size_t m);
Answer second_back(const int32_t *elements, size_t n, int32_t *samples, size_t m);
Answer second_round(const int32_t *elements, size_t n, uint32_t b, int32_t *coefficients, size_t m);
Answer second_reorient(const int32_t *elements, size_t n, uint32_t orientation, int32_t *output, size_t m);
Answer second_compose_orientations(uint32_t first, uint32_t second);
Answer second_quantize(const int32_t *coefficients, size_t n, const uint32_t *steps, size_t k, int32_t *quantized, size_t m);
Answer second_dequantize(const int32_t *quantized, size_t n, const uint32_t *steps, size_t k, int32_t *coefficients, size_t m);
Answer second_to_floats(const int32_t *coefficients, size_t n, uint32_t *floats, size_t m);
Summary second_summary(const int32_t *coefficients, size_t n);
SheetAnswer second_sheet(const uint32_t *words, size_t n, uint32_t b, int32_t *scratch, size_t k, uint32_t *output, size_t m);
Range second_sheet_range(const uint32_t *words, size_t n);

/* T.81: its factor of sample q = 8i+j in the DCT value at p = 8u+v, and the DCT value itself. */
long double T81_factor(int p, int q);
long double T81(const int32_t *samples, int p);

/* A block in another orientation, which is one of the eight. */
void reorient_samples(const int32_t *samples, uint32_t orientation, int32_t *reoriented);

/* The value of an element of eight components, and N of it at the width b, which is one of the three. */
long double element_value(const int32_t *u);
int64_t table_sum(const int32_t *u, uint32_t b);
int64_t table_number(int k, uint32_t b);

/* Whether y is no further than the distance of rounding from the eighths. */
int within_distance(int64_t y, long double eighths, uint32_t b);

/* Words. */
uint32_t kind(uint32_t w);
uint32_t payload(uint32_t w);
int32_t payload_value(uint32_t w);
uint32_t across(uint32_t head);
uint32_t down(uint32_t head);
uint32_t make_word(uint32_t k, int64_t v);
uint32_t make_head(uint32_t k, uint32_t a, uint32_t d);

/* The words of a sheet of so many blocks. */
size_t sheet_count(uint32_t blocks);

/* What a sheet has to have: the kinds of its head and of its body words, the lowest and the highest value of these, and the cause by which another
 * is refused. */
typedef struct { uint32_t head, body; int32_t lowest, highest; uint32_t cause; } Format;
extern const Format sample_format, coefficient_format;

#endif
