/* Compares file H of paper 01 with others through the C interface. Prints the answers and the lists.
 * The test rust/kelompuris/tests/c_program.rs builds and runs it, as C and as C++. */
#include "hall.h"
#include "kelompuris.h"
#include <assert.h>
#include <stdio.h>
#include <string.h>

static_assert(sizeof(kelompuris_compared) == 4 * 4, "four numbers, no gap");

enum { OUT = 24, MARK = 77 };

static uint8_t out[OUT];

/* Compares H with this file and prints the answer and the output; then marks all again. */
static void print_compared(const char *about, const uint8_t *second, size_t len, size_t room) {
    kelompuris_compared answer = kelompuris_b3d_compare(hall, sizeof hall, second, len, out, room);
    int i;
    printf("%s: %u %u %u %u,", about, (unsigned)answer.number, (unsigned)answer.place, (unsigned)answer.which, (unsigned)answer.size);
    for (i = 0; i < OUT; i++) {
        printf(" %d", out[i]);
    }
    printf("\n");
    memset(out, MARK, sizeof out);
}

int main(void) {
    uint8_t other[sizeof hall];
    kelompuris_compared answer;
    memcpy(other, hall, sizeof hall);
    memset(out, MARK, sizeof out);
    print_compared("same", hall, sizeof hall, OUT);
    other[8] = 9;
    print_compared("version", other, sizeof other, OUT);
    other[8] = 1;
    other[20] = 'B';
    other[28] = 128; /* the sign of position x: minus zero */
    print_compared("name and position", other, sizeof other, OUT);
    print_compared("short", other, sizeof other, 21);
    print_compared("cut", other, 11, OUT);
    answer = kelompuris_b3d_compare(NULL, 0, other, 11, NULL, 0);
    printf("no file: %u %u %u %u\n", (unsigned)answer.number, (unsigned)answer.place, (unsigned)answer.which, (unsigned)answer.size);
    return 0;
}
