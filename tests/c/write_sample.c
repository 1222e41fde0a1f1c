/* Writes and clears file H of paper 01 through the C interface. Prints the answers and what became of the output.
 * The test rust/kelompuris/tests/c_program.rs builds and runs it, as C and as C++. */
#include "hall.h"
#include "kelompuris.h"
#include <assert.h>
#include <stdio.h>
#include <string.h>

static_assert(sizeof(kelompuris_written) == 3 * 4, "three words, no gap");

enum { OUT = 70, MARK = 77 };

static uint8_t out[OUT];

/* Prints the answer and how many bytes at the end of the output are as they were; then marks all again. */
static void print(const char *about, kelompuris_written answer) {
    int left = 0;
    while (left < OUT && out[OUT - 1 - left] == MARK) {
        left++;
    }
    printf("%s: %u %u %u, %d bytes left\n", about, (unsigned)answer.number, (unsigned)answer.place, (unsigned)answer.size, left);
    memset(out, MARK, sizeof out);
}

/* Writes the one node "Hall" to an output of this size. */
static kelompuris_written write_hall(uint32_t version, size_t out_len) {
    static const uint8_t names[] = {'H', 'a', 'l', 'l'};
    static const uint32_t counts[10] = {0, 0, 1};
    uint32_t node[KELOMPURIS_NODE_WORDS] = {0, 4, 0xFFFFFFFF};
    return kelompuris_b3d_write(KELOMPURIS_STRICT, NULL, 0, NULL, 0, node, KELOMPURIS_NODE_WORDS, NULL, 0, NULL, 0,
                                NULL, 0, NULL, 0, NULL, 0, NULL, 0, NULL, 0,
                                counts, version, 0, names, sizeof names, out, out_len);
}

int main(void) {
    kelompuris_written answer;
    memset(out, MARK, sizeof out);
    print("short", write_hall(1, sizeof hall - 1));
    print("version 100", write_hall(100, OUT));
    answer = write_hall(1, OUT);
    printf("same as H: %d\n", memcmp(out, hall, sizeof hall) == 0);
    print("write", answer);
    print("cut", kelompuris_b3d_clear(hall, 11, out, OUT));
    print("no output", kelompuris_b3d_clear(hall, sizeof hall, NULL, 0));
    answer = kelompuris_b3d_clear(hall, sizeof hall, out, OUT);
    printf("lengths: %d %d, name: %d\n", out[4], out[16], out[20]);
    print("clear", answer);
    return 0;
}
