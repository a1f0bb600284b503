/* Runs a program on sheets, and holds every byte that it writes to the second program:
 * - for an accepted sheet, of transform_sheet the coefficient sheet, and each coefficient to eight times T.81's DCT value (ITU-T T.81, A.3.3) in long
 *   double; of sum_sheet the line with both sums;
 * - for a refused one, the line with the number and the place.
 * Called with the path of the program, with which of the two it is, transform or sum, and with the paths of sheets that it has to accept. */
#define _DEFAULT_SOURCE
#include "sheet_cases.h"
#include <errno.h>
#include <math.h>
#include <poll.h>
#include <sched.h>
#include <signal.h>
#include <stdarg.h>
#include <stdio.h>
#include <stdlib.h>
#include <string.h>
#include <sys/ioctl.h>
#include <sys/types.h>
#include <sys/wait.h>
#include <time.h>
#include <unistd.h>

enum { LIMIT = 32780, WIDTH = 26 }; /* the most bytes that the program reads, and its b */
enum { ROOM_BYTES = 4 * ROOM };
enum { FROM_FILE = 0, AT_ONCE = ROOM_BYTES }; /* besides the lengths of pieces in which an input is fed */

typedef struct { size_t length; uint8_t bytes[ROOM_BYTES]; } Bytes;

static const double most_ms = 50; /* a run on a largest sheet */
static const char *program;
static int sums; /* whether it writes sums, and not a coefficient sheet */
static FILE *input_file;
static Bytes came;            /* what the program wrote last */
static int answered[ANSWERS]; /* runs, by the number of the answer */

/* Words: the most significant byte first. */

static uint32_t word(const Bytes *b, size_t i) {
    const uint8_t *w = b->bytes + 4 * i;
    return (uint32_t)w[0] << 24 | (uint32_t)w[1] << 16 | (uint32_t)w[2] << 8 | w[3];
}

static void append(Bytes *b, uint32_t w) {
    for (int n = 0; n < 4; n++) b->bytes[b->length++] = (uint8_t)(w >> (24 - 8 * n));
}

static void to_bytes(const uint32_t *words, size_t count, Bytes *b) {
    b->length = 0;
    for (size_t i = 0; i < count; i++) append(b, words[i]);
}

/* Lines. */

FORMAT(2, 3) static void to_line(Bytes *b, const char *format, ...) {
    va_list rest;
    va_start(rest, format);
    b->length = (size_t)vsnprintf((char *)b->bytes, ROOM_BYTES, format, rest);
    va_end(rest);
}

/* The programs, as 01 and 02 define them, over the second program's sheet. */

static Answer second_output(const Bytes *input, Bytes *output) {
    static uint32_t words[ROOM], written[ROOM];
    int32_t scratch[SET];
    size_t length = input->length < LIMIT ? input->length : LIMIT, count = length / 4;
    for (size_t i = 0; i < count; i++) words[i] = word(input, i);
    SheetAnswer made = {{BAD_WORDS, count}, 0, 0};
    if (length % 4 == 0) made = second_sheet(words, count, WIDTH, scratch, SET, written, ROOM);
    if (made.answer.number != ACCEPTED) to_line(output, "refused %u at %zu\n", (unsigned)made.answer.number, made.answer.place);
    else if (sums) to_line(output, "SUM %lld %lld\n", (long long)made.sample_sum, (long long)made.first_sum);
    else to_bytes(written, made.answer.place, output);
    return made.answer;
}

/* Running the program. */

/* Waits until the pipe is empty: the program's read came back with what was sent so far. False if it reads no more. */
static int taken(int pipe_end) {
    struct pollfd reader = {pipe_end, POLLOUT, 0};
    for (;;) {
        int waiting = 0;
        poll(&reader, 1, 0);
        if (reader.revents & POLLERR) return 0;
        expect(ioctl(pipe_end, FIONREAD, &waiting) == 0, "no look into a pipe");
        if (waiting == 0) return 1;
        sched_yield();
    }
}

static void feed(int pipe_end, const Bytes *input, size_t piece) {
    for (size_t done = 0; done < input->length; done += piece) {
        size_t size = input->length - done < piece ? input->length - done : piece;
        ssize_t sent = write(pipe_end, input->bytes + done, size);
        if (sent < 0 && errno == EPIPE) return;
        expect(sent == (ssize_t)size, "a pipe takes no bytes");
        if (!taken(pipe_end)) return;
    }
}

static void collect(int pipe_end) {
    ssize_t got;
    came.length = 0;
    while ((got = read(pipe_end, came.bytes + came.length, ROOM_BYTES - came.length)) > 0) {
        came.length += (size_t)got;
        expect(came.length < ROOM_BYTES, "the program writes more than any sheet has");
    }
    expect(got == 0, "no bytes from a pipe");
}

/* the child's side; the alarm outlives exec, so that a program that hangs is ended */
static void become_program(int in, const int *out, int feeding_end) {
    dup2(in, 0);
    dup2(out[1], 1);
    dup2(out[1], 2); /* nothing is to be written there */
    close(out[0]);
    close(out[1]);
    if (feeding_end >= 0) close(feeding_end);
    close(in);
    signal(SIGPIPE, SIG_DFL);
    alarm(20);
    execl(program, program, (char *)NULL);
    _exit(127);
}

/* FROM_FILE, the program's input is a file, whose offset afterwards is what it has read; otherwise it is a pipe, fed in pieces. */
static void run(const Bytes *input, size_t piece) {
    int in[2] = {fileno(input_file), -1}, out[2], status;
    if (piece == FROM_FILE) {
        expect(ftruncate(in[0], 0) == 0 && pwrite(in[0], input->bytes, input->length, 0) == (ssize_t)input->length, "no file for the input");
        lseek(in[0], 0, SEEK_SET);
    } else expect(pipe(in) == 0, "no pipe");
    expect(pipe(out) == 0, "no pipe");
    pid_t child = fork();
    expect(child >= 0, "no process");
    if (child == 0) become_program(in[0], out, in[1]);
    close(out[1]);
    if (piece != FROM_FILE) {
        close(in[0]);
        feed(in[1], input, piece);
        if (input->length < LIMIT) close(in[1]); /* at the limit the program ends by itself: it is not to wait for more */
    }
    collect(out[0]);
    close(out[0]);
    if (piece != FROM_FILE && input->length >= LIMIT) close(in[1]);
    expect(waitpid(child, &status, 0) == child && WIFEXITED(status) && WEXITSTATUS(status) == 0,
           "the program does not start, or does not end as it should");
    if (piece == FROM_FILE) expect(lseek(in[0], 0, SEEK_CUR) <= LIMIT, "the program reads more than 32,780 bytes");
}

/* Comparing. */

static void print_bytes(const char *what, const Bytes *b, size_t from) {
    printf("  %s: %zu bytes, from byte %zu:", what, b->length, from);
    for (size_t n = from; n < b->length && n < from + 8; n++) printf(" %02X", b->bytes[n]);
    if (b->length > 0 && (b->bytes[0] == 'r' || b->bytes[0] == 'S'))
        printf(" of \"%.*s\"", (int)strcspn((const char *)b->bytes, "\n"), (const char *)b->bytes);
    printf("\n");
}

static void compare_output(const Bytes *input, size_t piece, const Bytes *expected) {
    size_t n = 0;
    while (n < expected->length && n < came.length && expected->bytes[n] == came.bytes[n]) n++;
    if (n == expected->length && n == came.length) return;
    uint32_t head = input->length < 4 ? 0 : word(input, 0);
    printf("  %s on %zu bytes in pieces of %zu (0: a file), a head of kind %u, %u by %u blocks\n", program, input->length, piece,
           (unsigned)kind(head), (unsigned)across(head), (unsigned)down(head));
    came.bytes[came.length] = 0;
    print_bytes("expected", expected, n);
    print_bytes("came", &came, n);
    expect(0, "the program's output differs at byte %zu", n);
}

static void block_values(const Bytes *sheet, size_t block, int32_t *numbers) {
    for (size_t q = 0; q < BLOCK; q++) numbers[q] = payload_value(word(sheet, 1 + BLOCK * block + q));
}

/* each coefficient against T.81's own formula */
static void check_formula(const Bytes *input) {
    for (size_t block = 0; block < came.length / 4 / BLOCK; block++) {
        int32_t samples[BLOCK], coefficients[BLOCK];
        block_values(input, block, samples);
        block_values(&came, block, coefficients);
        for (int p = 0; p < BLOCK; p++)
            expect(within_distance(coefficients[p], 8 * T81(samples, p), WIDTH),
                   "coefficient %d of block %zu is too far from eight times the DCT value", p, block);
    }
}

static Answer check(const Bytes *input, size_t piece) {
    static Bytes expected;
    Answer answer = second_output(input, &expected);
    run(input, piece);
    compare_output(input, piece, &expected);
    if (answer.number == ACCEPTED && !sums) check_formula(input);
    answered[answer.number]++;
    return answer;
}

static Answer check_words(const Sheet *sheet) {
    static Bytes input;
    to_bytes(sheet->words, sheet->count, &input);
    return check(&input, FROM_FILE);
}

/* a case whose answer is known beforehand: the second program is held to it, too */
static void check_answer(const Bytes *input, uint32_t number, size_t place) {
    Answer answer = check(input, FROM_FILE);
    expect(answer.number == number && answer.place == place, "the second program has another answer than the case");
}

/* Making inputs. */

static void make_input(Bytes *input, uint32_t a, uint32_t d) {
    Sheet sheet;
    make_sheet(&sheet, a, d, ANY);
    to_bytes(sheet.words, sheet.count, input);
}

/* cuts the input, or makes it longer by bytes that look like samples */
static void set_length(Bytes *input, size_t length) {
    for (; input->length < length; input->length++) {
        static const uint8_t one[4] = {0x20, 0, 0, 1};
        input->bytes[input->length] = one[input->length % 4];
    }
    input->length = length;
}

/* Cases. */

/* 01's worked examples of transform_sheet, and 02's of sum_sheet, byte for byte as they stand there */

static void example_of_ones(size_t piece) {
    static Bytes input, wanted;
    input.length = wanted.length = 0;
    append(&input, 0x10004001);
    append(&wanted, 0x40004001);
    for (int q = 0; q < BLOCK; q++) {
        append(&input, 0x20000001);
        append(&wanted, q == 0 ? 0x30000040 : 0x30000000);
    }
    append(&input, 0xF0000001);
    append(&wanted, 0xF0000001);
    if (sums) to_line(&wanted, "SUM 64 64\n");
    begin("01's sheet of ones");
    check(&input, piece);
    compare_output(&input, piece, &wanted);
}

static void example_of_few_bytes(size_t length, size_t piece) {
    static Bytes few = {.bytes = {0x10, 0, 0x40}}, wanted;
    few.length = length;
    to_line(&wanted, length == 0 ? "refused 6 at 0\n" : "refused 7 at 0\n");
    begin("%zu bytes", length);
    check(&few, piece);
    compare_output(&few, piece, &wanted);
}

static void worked_examples(void) {
    static const size_t pieces[] = {FROM_FILE, AT_ONCE, 1, 2, 3, 5, 7, 63, 255};
    for (size_t n = 0; n < COUNT(pieces); n++) {
        example_of_ones(pieces[n]);
        for (size_t length = 0; length < 4; length++) example_of_few_bytes(length, pieces[n]);
    }
}

/* one block, cut at every byte and longer */
static void every_length(void) {
    Bytes input;
    make_input(&input, 1, 1);
    set_length(&input, 280);
    for (input.length = 1; input.length < 280; input.length++) {
        begin("one block, %zu bytes", input.length);
        check_answer(&input, input.length == 264 ? ACCEPTED : BAD_WORDS, input.length / 4);
    }
}

/* lengths about the most that is read, with small heads, with the largest, and with some that are none */
static void long_inputs(void) {
    static const size_t lengths[] = {32773, 32774, 32775, 32776, 32777, 32778, 32779, 32780, 32781, 32782, 32783, 32784, 32788, 33032, 36864, 39999,
        40000};
    static const struct { uint32_t kind, across, down; } heads[] = {{1, 1, 1}, {1, 2, 1}, {1, 128, 1}, {1, 1, 128}, {1, 8, 16},
        {4, 1, 1}, {1, 0, 1}, {1, 129, 1}};
    Bytes input, head;
    for (size_t n = 0; n < COUNT(lengths) * COUNT(heads); n++) {
        uint32_t k = heads[n % COUNT(heads)].kind, a = heads[n % COUNT(heads)].across, d = heads[n % COUNT(heads)].down;
        size_t length = lengths[n / COUNT(heads)], seen = length < LIMIT ? length : LIMIT;
        make_input(&input, 8, 16);
        set_length(&input, length);
        to_bytes(&(uint32_t){make_head(k, a, d)}, 1, &head);
        memcpy(input.bytes, head.bytes, 4);
        begin("%zu bytes, a head of kind %u, %u by %u blocks", length, (unsigned)k, (unsigned)a, (unsigned)d);
        if (seen % 4 != 0) check_answer(&input, BAD_WORDS, seen / 4);
        else if (k != SAMPLE_HEAD || a * d == 0 || a * d > MOST_BLOCKS) check_answer(&input, BAD_HEAD, 0);
        else check_answer(&input, a * d == MOST_BLOCKS && seen == 32776 ? ACCEPTED : BAD_WORDS, seen / 4);
    }
}

/* inputs whose reads come back short */
static void in_pieces(void) {
    static const size_t pieces[] = {AT_ONCE, 97, 1021, 4093, 4095, 4096, 4097, 8191, 32775, 32776, 32779, 32780};
    static const size_t lengths[] = {32776, 32775, 32777, 32780, 32783, 40000};
    Bytes input;
    for (size_t n = 0; n < COUNT(pieces); n++)
        for (size_t m = 0; m < COUNT(lengths); m++) {
            make_input(&input, 16, 8);
            set_length(&input, lengths[m]);
            begin("%zu bytes in pieces of %zu", lengths[m], pieces[n]);
            check(&input, pieces[n]);
        }
    for (uint32_t blocks = 1; blocks < 5; blocks++)
        for (size_t piece = 1; piece < 10; piece++) {
            make_input(&input, 1, blocks);
            begin("%u blocks in pieces of %zu", (unsigned)blocks, piece);
            check(&input, piece);
            input.length -= piece;
            check(&input, piece);
        }
}

/* two sheets that agree in one block, and in no other: the program's outputs agree in that block's words, and in no other's */
static void independent_blocks(void) {
    Bytes one, other, output;
    for (size_t block = 0; block < 6; block++) {
        begin("sheets that agree in block %zu", block);
        make_input(&one, 3, 2);
        make_input(&other, 3, 2);
        memcpy(other.bytes + 4 + 256 * block, one.bytes + 4 + 256 * block, 256);
        check_answer(&one, ACCEPTED, 386);
        output = came;
        check_answer(&other, ACCEPTED, 386);
        for (size_t n = 0; n < 6; n++) {
            int agree = memcmp(output.bytes + 4 + 256 * n, came.bytes + 4 + 256 * n, 256) == 0;
            expect(agree == (n == block), "the outputs agree in other blocks than the sheets");
        }
    }
}

/* Sums that are known beforehand, and the line of each, which has the digits that are written here: 0, the least and the greatest of each count of
 * digits with both signs, the lowest and the highest of all and those of 12 bits, and some that are no 32-bit floats. Samples are as equal as they can
 * be, or mixed. */

#define WITH_LINE(sum) {sum, "SUM " #sum " " #sum "\n"}
#define WITH_LINES(sum) WITH_LINE(sum), WITH_LINE(-sum)

static void known_sums(void) {
    static const struct { int32_t sum; const char *line; } cases[] = {WITH_LINE(0), WITH_LINES(1), WITH_LINES(9), WITH_LINES(10), WITH_LINES(99),
        WITH_LINES(100), WITH_LINES(999), WITH_LINES(1000), WITH_LINES(9999), WITH_LINES(10000), WITH_LINES(99999), WITH_LINES(100000),
        WITH_LINES(999999), WITH_LINES(1000000), WITH_LINES(9999999), WITH_LINES(10000000), WITH_LINES(99999999), WITH_LINES(100000000),
        WITH_LINE(-16777216), WITH_LINE(16769024), WITH_LINES(16777217), WITH_LINES(134217729), WITH_LINE(-268435456), WITH_LINE(-268435455),
        WITH_LINE(268427264), WITH_LINE(268427263)};
    static const int32_t counts[] = {1, 2, MOST_BLOCKS};
    static Bytes input, wanted;
    Sheet sheet;
    for (size_t n = 0; n < COUNT(cases) * COUNT(counts) * 2; n++) {
        int32_t sum = cases[n / 2 / COUNT(counts)].sum, blocks = counts[n / 2 % COUNT(counts)], mixed = n % 2;
        if (sum < BLOCK * blocks * LOWEST || sum > BLOCK * blocks * HIGHEST) continue;
        begin("%d blocks of samples that sum to %d, mixed %d", (int)blocks, (int)sum, (int)mixed);
        make_with_sum(&sheet, (uint32_t)blocks, sum, mixed);
        to_bytes(sheet.words, sheet.count, &input);
        to_line(&wanted, "%s", cases[n / 2 / COUNT(counts)].line);
        check(&input, FROM_FILE);
        compare_output(&input, FROM_FILE, &wanted);
    }
}

static void random_sheets(void) {
    static const size_t pieces[] = {FROM_FILE, FROM_FILE, FROM_FILE, AT_ONCE, 61, 997};
    Sheet sheet;
    Bytes input;
    for (int n = 0; n < 2000; n++) {
        uint32_t a = (uint32_t)any(1, n % 50 == 0 ? 16 : 4), d = (uint32_t)any(1, n % 50 == 0 ? 8 : 4);
        enum pattern pattern = (enum pattern)any(0, PATTERNS - 1);
        make_sheet(&sheet, a, d, pattern);
        if (n % 4 != 0) damage(&sheet);
        to_bytes(sheet.words, sheet.count, &input);
        if (n % 8 == 1) set_length(&input, (size_t)any(0, (int32_t)input.length + 8));
        begin("random sheet %d, made as %u by %u blocks of pattern %u", n, (unsigned)a, (unsigned)d, (unsigned)pattern);
        check(&input, pieces[any(0, 5)]);
    }
}

static void read_example(const char *path) {
    Bytes input;
    FILE *file = fopen(path, "rb");
    begin("%s", path);
    expect(file != NULL, "no such file");
    input.length = fread(input.bytes, 1, ROOM_BYTES, file);
    fclose(file);
    check_answer(&input, ACCEPTED, input.length / 4);
}

static double now_ms(void) {
    struct timespec t;
    clock_gettime(CLOCK_MONOTONIC, &t);
    return (double)t.tv_sec * 1e3 + (double)t.tv_nsec / 1e6;
}

/* the time of a run on a largest sheet, its start and end included: the best of 20, since others may be at work on the machine */
static double best_ms(void) {
    Bytes input, wanted;
    double best = INFINITY;
    begin("time");
    make_input(&input, 8, 16);
    expect(second_output(&input, &wanted).number == ACCEPTED, "a sheet is refused");
    for (int n = 0; n < 20; n++) {
        double begun = now_ms();
        run(&input, FROM_FILE);
        best = fmin(best, now_ms() - begun);
        compare_output(&input, FROM_FILE, &wanted);
    }
    return best;
}

/* prints how many runs there were; every answer that the programs have must have come, and no other */
static void report(double ms) {
    int runs = 0;
    printf("sheets: a run of %s on 128 blocks takes %.2f ms, the best of 20\n", program, ms);
    expect(ms < most_ms, "that is too long");
    begin("end");
    for (int n = 0; n < ANSWERS; n++) {
        int possible = n == ACCEPTED || n == BAD_SAMPLE || (n >= BAD_HEAD && n <= BAD_END);
        expect((answered[n] > 0) == possible, "the answer %d came %d times", n, answered[n]);
        runs += answered[n];
    }
    printf("sheets: %d runs of %s as %s have them, %d accepted, %d refused for cause 2, %d for 6, %d for 7, %d for 8; seed %llu\n", runs, program,
           sums ? "01 and 02" : "01 and T.81's formula", answered[ACCEPTED], answered[BAD_SAMPLE], answered[BAD_HEAD], answered[BAD_WORDS],
           answered[BAD_END], (unsigned long long)seed);
}

int main(int argc, char **argv) {
    start("sheets");
    expect(argc >= 3, "called without the path of the program, and transform or sum");
    program = argv[1];
    sums = strcmp(argv[2], "sum") == 0;
    expect(sums || strcmp(argv[2], "transform") == 0, "%s is neither transform nor sum", argv[2]);
    signal(SIGPIPE, SIG_IGN);
    input_file = tmpfile();
    expect(input_file != NULL, "no file for the input");
    worked_examples();
    for (int n = 3; n < argc; n++) read_example(argv[n]);
    sheet_cases(&(Job){check_words, &sample_format, WIDTH, LIMIT / 4});
    every_length();
    long_inputs();
    in_pieces();
    random_sheets();
    if (sums) known_sums();
    else independent_blocks();
    report(best_ms());
    return 0;
}
