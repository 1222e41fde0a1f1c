/* Writes and reads slips through the C interface: of file H of paper 01, and of numbers. Prints the answers and the bytes.
 * The test rust/kelompuris/tests/c_program.rs builds and runs it, as C and as C++. */
#include "hall.h"
#include "kelompuris.h"
#include <assert.h>
#include <stdio.h>
#include <string.h>

static_assert(sizeof(kelompuris_slip) == 14 * 4, "fourteen words, no gap");

enum { OUT = KELOMPURIS_SLIP_BYTES + 1, MARK = 77 };

static uint8_t out[OUT];

/* Prints the answer and the output; then marks all again. */
static void print_written(const char *about, kelompuris_written answer) {
    int i;
    printf("%s: %u %u %u,", about, (unsigned)answer.number, (unsigned)answer.place, (unsigned)answer.size);
    for (i = 0; i < OUT; i++) {
        printf(" %d", out[i]);
    }
    printf("\n");
    memset(out, MARK, sizeof out);
}

/* Reads a slip and prints the answer. */
static void print_read(const char *about, const uint8_t *slip, size_t len) {
    kelompuris_slip answer = kelompuris_slip_read(slip, len);
    int i;
    printf("%s: %u %u,", about, (unsigned)answer.number, (unsigned)answer.place);
    for (i = 0; i < KELOMPURIS_SLIP_NUMBERS; i++) {
        printf(" %u", (unsigned)answer.numbers[i]);
    }
    printf("\n");
}

int main(void) {
    static const uint32_t numbers[KELOMPURIS_SLIP_NUMBERS] = {99, 8, 0, 128, 16384};
    static const uint32_t version_100[KELOMPURIS_SLIP_NUMBERS] = {100};
    static const uint8_t four_groups[] = {1, 0, 0x81, 0x80, 0x80};
    uint8_t slip[OUT];
    memset(out, MARK, sizeof out);
    print_written("hall", kelompuris_b3d_slip(hall, sizeof hall, out, OUT));
    print_written("no output", kelompuris_b3d_slip(hall, sizeof hall, NULL, 0));
    print_written("cut hall", kelompuris_b3d_slip(hall, 11, out, OUT));
    print_written("version 100", kelompuris_slip_write(version_100, out, OUT));
    (void)kelompuris_slip_write(numbers, slip, OUT);
    print_written("numbers", kelompuris_slip_write(numbers, out, OUT));
    print_read("read", slip, 15);
    print_read("cut slip", slip, 14);
    print_read("spare byte", slip, 16);
    print_read("four groups", four_groups, sizeof four_groups);
    print_read("no slip", NULL, 0);
    return 0;
}
