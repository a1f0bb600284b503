/* Takes a block forward, rounds it and takes it back, and shows how a refusal comes. rust/examples/block.rs does the same. */
#include <inttypes.h>
#include <stdio.h>
#include <string.h>

#include "weld_dct.h"

static void print_numbers(const char *what, const int32_t *numbers) {
    printf("%s", what);
    for (int k = 0; k < 8; k++) printf(" %" PRId32, numbers[k]);
    printf("\n");
}

/* Whether a call is accepted; if not, says what it was and why. */
static int accepted(struct weld_dct_answer answer, const char *what) {
    if (answer.number == WELD_DCT_ACCEPTED) return 1;
    printf("%s: refused %" PRIu32 " at %zu\n", what, answer.number, answer.place);
    return 0;
}

int main(void) {
    int32_t samples[WELD_DCT_PLACES], elements[WELD_DCT_COMPONENTS], coefficients[WELD_DCT_PLACES], again[WELD_DCT_PLACES];

    /* A slope with a curve in it: the sample of row i, column j is 40·i² - 25·i·j - 300. */
    for (int i = 0; i < 8; i++)
        for (int j = 0; j < 8; j++) samples[8 * i + j] = 40 * i * i - 25 * i * j - 300;

    if (!accepted(weld_dct_forward(samples, WELD_DCT_PLACES, elements, WELD_DCT_COMPONENTS), "forward")) return 1;
    print_numbers("element (0,0):", elements);
    print_numbers("element (1,1):", elements + 72);

    if (!accepted(weld_dct_round(elements, WELD_DCT_COMPONENTS, 26, coefficients, WELD_DCT_PLACES), "round")) return 1;
    print_numbers("coefficients (0,0) to (0,7), in eighths:", coefficients);

    if (!accepted(weld_dct_back(elements, WELD_DCT_COMPONENTS, again, WELD_DCT_PLACES), "back")) return 1;
    printf("the same block again: %s\n", memcmp(samples, again, sizeof samples) == 0 ? "yes" : "no");

    elements[0] += 1;
    accepted(weld_dct_back(elements, WELD_DCT_COMPONENTS, again, WELD_DCT_PLACES), "one more in the first component");

    samples[9] = WELD_DCT_HIGHEST_SAMPLE + 1;
    struct weld_dct_answer answer = weld_dct_forward(samples, WELD_DCT_PLACES, elements, WELD_DCT_COMPONENTS);
    if (answer.number == WELD_DCT_REFUSED_SAMPLE) printf("sample %zu is out of range\n", answer.place);
    return 0;
}
