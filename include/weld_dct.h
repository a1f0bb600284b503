/* The exact 8 by 8 cosine transform for weld radiographs, for C and C++.
 *
 * Every function takes any numbers and buffers of any length. It either does the whole of its work and answers 0, or it answers the number
 * of one refusal with its place, and then every buffer is as it was, any sum in the answer 0, and any float plus zero. That each function
 * does what is said here is proved of its source; docs/CLAIMS.md says where, and docs/TRUST.md what remains to be believed.
 *
 * A buffer is a pointer and the count of its numbers. What the caller must see to, because no function can look at it: a pointer is valid
 * for its count of numbers, aligned, and not null, even where the count is 0; a buffer that is written overlaps no other buffer of the call.
 * The functions keep no state and may be called from any number of threads at once, each with buffers of its own. They do not allocate, and
 * none takes more than 8 KB of stack, which tests/run measures. A float is IEEE 754's binary32. Each that a function gives is exact, and zero is
 * plus zero.
 *
 * Link libweld_dct.a. It needs memcpy and memset, and nothing else.
 */
#ifndef WELD_DCT_H
#define WELD_DCT_H

#include <stddef.h>
#include <stdint.h>

#ifdef __cplusplus
extern "C" {
#endif

/* A block has 64 samples, 64 coefficients, 64 quantized values and 64 floats, row by row, 64 quantization steps, in zig-zag order, and 64
 * elements of eight components each, in 512 numbers. */
#define WELD_DCT_PLACES 64
#define WELD_DCT_COMPONENTS 512

/* The lowest and the highest sample. */
#define WELD_DCT_LOWEST_SAMPLE (-32768)
#define WELD_DCT_HIGHEST_SAMPLE 32767

/* The magnitudes of an element's eight components may sum to at most this: 128 times that of the lowest sample. */
#define WELD_DCT_MAGNITUDES_LIMIT 4194304

/* The widths b at which coefficients are rounded, as an initialiser. */
#define WELD_DCT_WIDTHS {11, 20, 26}

/* How many orientations a block has. They are 0 to 7: 0 changes nothing, 1 mirrors left and right, 2 top and bottom, 3 both; 4 to 7 first
 * swap rows with columns, then do as 0 to 3. */
#define WELD_DCT_ORIENTATIONS 8

/* A quantization step is at least 1 and at most this. */
#define WELD_DCT_STEP_LIMIT 1024

/* The largest magnitude of a coefficient that is quantized or made a float, and of one that dequantize gives. The second is the first and four
 * times the largest step, which is as far as a coefficient can move on the way there and back. */
#define WELD_DCT_COEFFICIENT_LIMIT 4194303
#define WELD_DCT_DEQUANTIZED_LIMIT 4198399

/* The most blocks that a sheet has, and the words of a sheet of so many blocks: a head, 64 for each block, and an end word. */
#define WELD_DCT_BLOCKS_LIMIT 128
#define WELD_DCT_SHEET_WORDS(blocks) (2 + WELD_DCT_PLACES * (size_t)(blocks))

/* What an answer's number says, and what its place is. */
enum {
    WELD_DCT_ACCEPTED = 0,            /* the work is done; place: of a sheet that is transformed the words written, of two orientations the
                                         composed one, otherwise 0 */
    WELD_DCT_REFUSED_LENGTHS = 1,     /* samples, coefficients, steps, quantized values or floats are not 64, elements, read or written, or
                                         scratch not 512, or a sheet's output is shorter than the sheet; place 0 */
    WELD_DCT_REFUSED_SAMPLE = 2,      /* a sample is out of range; place: its index, in a sheet the word's */
    WELD_DCT_REFUSED_WIDTH = 3,       /* b is not 11, 20 or 26; place 0 */
    WELD_DCT_REFUSED_MAGNITUDES = 4,  /* an element's magnitudes sum above the limit; place: its number 8u+v */
    WELD_DCT_REFUSED_NO_BLOCK = 5,    /* no block in range has these elements; place 0 */
    WELD_DCT_REFUSED_HEAD = 6,        /* a sheet has no words, or its first is not of the kind of its head, 1 for samples and 4 for
                                         coefficients, or its sizes are not allowed; place 0 */
    WELD_DCT_REFUSED_WORDS = 7,       /* a sheet has a wrong count of words; place: the count. Or a word is of another kind than its place
                                         needs; place: its index, which is below the count */
    WELD_DCT_REFUSED_END = 8,         /* the end word does not hold the number of blocks; place: its index */
    WELD_DCT_REFUSED_ORIENTATION = 9, /* an orientation is above 7; place 0 */
    WELD_DCT_REFUSED_STEP = 10,       /* a quantization step is not from 1 to 1,024; place: its index in the list, in zig-zag order */
    WELD_DCT_REFUSED_COEFFICIENT = 11 /* a coefficient that is to be quantized or made a float, or one that dequantize would give, is beyond
                                         its limit; place: its index 8u+v, in a sheet the word's */
};

/* Where more than one sample, element, word, step or coefficient has a fault, the place is the lowest. */
struct weld_dct_answer {
    uint32_t number;
    size_t place;
};

/* What summary answers: textured is 1 for a textured block, and 0 for a flat one, of which largest is 0. */
struct weld_dct_summary_answer {
    uint32_t number;
    size_t place;
    uint32_t textured;
    float mean;
    float largest;
};

/* What sheet answers: the sum of all samples, and the sum of the first coefficients in eighths of all blocks. The two are equal on every
 * accepted sheet, and 0 beside a refusal. Earlier versions of sheet answered a struct weld_dct_answer, which has the first two fields alone: a
 * caller has to name this struct in its place, and to be compiled anew. */
struct weld_dct_sheet_answer {
    uint32_t number;
    size_t place;
    int64_t sample_sum;
    int64_t first_sum;
};

/* What sheet_range answers: the lowest and the highest float. */
struct weld_dct_range_answer {
    uint32_t number;
    size_t place;
    float lowest;
    float highest;
};

/* Forward: the 64 exact elements of a block.
 *
 * samples: 64 numbers, the sample of row i, column j at index 8i+j. elements: exactly 512. The element of the frequencies u down and v
 * across starts at index 8(8u+v): eight numbers u_0 to u_7, which mean u_0 + u_1 c_1 + ... + u_7 c_7, c_k being 2 cos(k pi/16). That is
 * exactly sixteen times the DCT value that ITU-T T.81, A.3.3, has for these frequencies.
 * Refuses, in this order: WELD_DCT_REFUSED_LENGTHS, n not 64 or m not 512; WELD_DCT_REFUSED_SAMPLE. */
struct weld_dct_answer weld_dct_forward(const int32_t *samples, size_t n, int32_t *elements, size_t m);

/* Back: the block that has 64 given elements.
 *
 * elements: 512 numbers, laid out as forward writes them. samples: exactly 64. With these lengths, accepted exactly if there is a
 * block in range of which forward makes these 512 numbers; there is then only one, and that is written.
 * Refuses, in this order: WELD_DCT_REFUSED_LENGTHS, n not 512 or m not 64; WELD_DCT_REFUSED_MAGNITUDES; WELD_DCT_REFUSED_NO_BLOCK. */
struct weld_dct_answer weld_dct_back(const int32_t *elements, size_t n, int32_t *samples, size_t m);

/* Round: 64 coefficients in eighths, from 64 exact elements, at the width b.
 *
 * elements: 512 numbers, laid out as forward writes them, a block's or others within the limit. coefficients: exactly 64, the one
 * of (u,v) at index 8u+v, which stands for eight times the DCT value. It is the whole number nearest to N / 2^(b+1), where N is
 * 2^b u_0 + m_1 u_1 + ... + m_7 u_7 and m_k is the whole number nearest to 2^b c_k; a half goes away from zero, so that elements with all
 * components negated give all coefficients negated. A coefficient is never further than 1/2 + 1,048,576/2^b from half of its element's exact
 * value, 1,048,576 being a quarter of WELD_DCT_MAGNITUDES_LIMIT, and never beyond WELD_DCT_COEFFICIENT_LIMIT
 * in magnitude.
 * Refuses, in this order: WELD_DCT_REFUSED_LENGTHS, n not 512 or m not 64; WELD_DCT_REFUSED_WIDTH; WELD_DCT_REFUSED_MAGNITUDES. */
struct weld_dct_answer weld_dct_round(const int32_t *elements, size_t n, uint32_t b, int32_t *coefficients, size_t m);

/* Reorient: 64 exact elements in another orientation, without going back to samples.
 *
 * elements: 512 numbers, laid out as forward writes them, a block's or others within the limit. output: exactly 512, laid out likewise.
 * Where the elements are a block's, those of the reoriented block are written. Of any set, the same elements are written, each at its place
 * and with its sign: the swap exchanges those of (u,v) and (v,u); then mirroring left and right negates those where v is odd, and top and
 * bottom those where u is odd. No magnitude changes, so that what is written is within the limit again.
 * Refuses, in this order: WELD_DCT_REFUSED_LENGTHS, n or m not 512; WELD_DCT_REFUSED_ORIENTATION; WELD_DCT_REFUSED_MAGNITUDES. */
struct weld_dct_answer weld_dct_reorient(const int32_t *elements, size_t n, uint32_t orientation, int32_t *output, size_t m);

/* Compose orientations: the one orientation that equals the first followed by the second.
 *
 * An accepted call answers 0, and the orientation as the place. For all elements within the limit, to reorient by the first and then by the
 * second gives the same 512 numbers as to reorient by this one.
 * Refuses: WELD_DCT_REFUSED_ORIENTATION, one of the two is above 7. */
struct weld_dct_answer weld_dct_compose_orientations(uint32_t first, uint32_t second);

/* Quantize: 64 quantized values, from 64 coefficients in eighths and their quantization steps (ITU-T T.81, A.3.4).
 *
 * coefficients: 64 numbers, the one of (u,v) at index 8u+v, as round lays them out. steps: 64 numbers from 1 to 1,024, in the zig-zag order
 * of T.81, Figure A.6: those of (0,0), (0,1), (1,0), (2,0), (1,1), (0,2), (0,3), and so on to (7,7). quantized: exactly 64. The quantized value
 * of (u,v) is written at index 8u+v. It is the whole number nearest to the coefficient over 8 times the step of (u,v); a half goes away from
 * zero.
 * Refuses, in this order: WELD_DCT_REFUSED_LENGTHS, n, k or m not 64; WELD_DCT_REFUSED_STEP; WELD_DCT_REFUSED_COEFFICIENT, a coefficient
 * is beyond 4,194,303 in magnitude. */
struct weld_dct_answer weld_dct_quantize(const int32_t *coefficients, size_t n, const uint32_t *steps, size_t k, int32_t *quantized,
                                         size_t m);

/* Dequantize: 64 coefficients in eighths, from 64 quantized values and their quantization steps.
 *
 * quantized: 64 numbers, laid out as quantize writes them. steps: 64 numbers from 1 to 1,024, in zig-zag order as for quantize.
 * coefficients: exactly 64. The coefficient of (u,v) is written at index 8u+v. It is the quantized value times 8 times the step of (u,v).
 * What quantize writes is accepted at the same steps, and each coefficient that comes back is no further than 4 times its step from the one
 * that was quantized.
 * Refuses, in this order: WELD_DCT_REFUSED_LENGTHS, n, k or m not 64; WELD_DCT_REFUSED_STEP; WELD_DCT_REFUSED_COEFFICIENT, a coefficient
 * would be beyond 4,198,399 in magnitude. */
struct weld_dct_answer weld_dct_dequantize(const int32_t *quantized, size_t n, const uint32_t *steps, size_t k, int32_t *coefficients,
                                           size_t m);

/* To floats: 64 floats, from 64 coefficients in eighths.
 *
 * coefficients: 64 numbers, the one of (u,v) at index 8u+v, as round lays them out. floats: exactly 64. At each index is written the
 * coefficient over 8, exactly.
 * Refuses, in this order: WELD_DCT_REFUSED_LENGTHS, n or m not 64; WELD_DCT_REFUSED_COEFFICIENT, a coefficient is beyond 4,194,303 in
 * magnitude. */
struct weld_dct_answer weld_dct_to_floats(const int32_t *coefficients, size_t n, float *floats, size_t m);

/* Summary: whether a block is flat or textured, with its mean grey and its largest other coefficient.
 *
 * coefficients: 64 numbers in eighths, the one of (u,v) at index 8u+v, as round lays them out. A block is flat if all but the first are 0.
 * The mean is the first over 64, of any sign. largest is, for a textured block, the one of largest magnitude among the other 63, of
 * equal magnitudes the one of the lowest index, over 8 and with its sign; and for a flat block 0. An accepted call answers 0 and place 0.
 * Refuses, in this order: WELD_DCT_REFUSED_LENGTHS, n not 64; WELD_DCT_REFUSED_COEFFICIENT, a coefficient is beyond 4,194,303 in
 * magnitude. textured is then 0. */
struct weld_dct_summary_answer weld_dct_summary(const int32_t *coefficients, size_t n);

/* Sheet: a sheet of sample words to a sheet of coefficient words, at the width b.
 *
 * A word has its kind in its top four bits and a payload in the other 28. words: a head of kind 1, blocks across in bits 27 to 14 and
 * blocks down in bits 13 to 0; for each block, left to right and then down, 64 words of kind 2, each a sample in 28-bit two's complement;
 * an end word of kind 15, its payload the number of blocks. Both sizes are at least 1 and their product is at most 128.
 * output: room for n words or more. Written are n: a head of kind 4 with the same sizes, for each block 64 words of kind 3, each a
 * coefficient in 28-bit two's complement as round gives it at b, and the same end word. Words beyond them stay as they were. A sheet with
 * all samples negated, where these are in range, gives all coefficients negated. scratch: 512 numbers; afterwards the elements of the last
 * block. An accepted call answers 0 and n, and both sums.
 * Refuses, in this order: WELD_DCT_REFUSED_WIDTH; WELD_DCT_REFUSED_HEAD; WELD_DCT_REFUSED_WORDS for the count; WELD_DCT_REFUSED_LENGTHS,
 * k not 512 or m below n; then the first faulty word: WELD_DCT_REFUSED_WORDS for its kind, and otherwise WELD_DCT_REFUSED_SAMPLE or
 * WELD_DCT_REFUSED_END for what it holds. */
struct weld_dct_sheet_answer weld_dct_sheet(const uint32_t *words, size_t n, uint32_t b, int32_t *scratch, size_t k, uint32_t *output,
                                            size_t m);

/* Sheet range: the lowest and the highest float of a coefficient sheet.
 *
 * words: a head of kind 4, 64 words of kind 3 for each block, each a coefficient in eighths in 28-bit two's complement, and an end word,
 * laid out as sheet writes them. The floats are the coefficients over 8, exactly. An accepted call answers 0 and place 0.
 * Refuses, in this order: WELD_DCT_REFUSED_HEAD; WELD_DCT_REFUSED_WORDS for the count; then the first faulty word: WELD_DCT_REFUSED_WORDS
 * for its kind, and otherwise WELD_DCT_REFUSED_COEFFICIENT, a coefficient is beyond 4,194,303 in magnitude, or WELD_DCT_REFUSED_END for
 * what it holds. */
struct weld_dct_range_answer weld_dct_sheet_range(const uint32_t *words, size_t n);

#ifdef __cplusplus
}
#endif

#endif
