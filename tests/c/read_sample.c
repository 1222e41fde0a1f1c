/* Reads file H of paper 01 through the C interface: a scene of version 1 with one node, "Hall". Prints the answer and the node's row. Then judges
 * a file with a brush whose alpha is not a number, in both modes and in one that is none. Then prints the label of H, and of H cut.
 * The test rust/kelompuris/tests/c_program.rs builds and runs it, as C and as C++. */
#include "hall.h"
#include "answer.h"
#include "kelompuris.h"
#include <assert.h>
#include <stdio.h>

static_assert(sizeof(kelompuris_answer) == 14 * 4, "fourteen words, no gap");

/* One brush without a name: red, green and blue 1, alpha 0x7FC00000. */
static const uint8_t brush[53] = {
    'B', 'B', '3', 'D', 45, 0, 0, 0, 1, 0, 0, 0, 'B', 'R', 'U', 'S', 33, 0, 0, 0, 0, 0, 0, 0, 0,
    0, 0, 0x80, 0x3F, 0, 0, 0x80, 0x3F, 0, 0, 0x80, 0x3F, 0, 0, 0xC0, 0x7F};

/* Reads into a table of nodes of this many words; the other tables have none. */
static kelompuris_answer read_nodes(const uint8_t *file, size_t len, uint32_t *nodes, size_t words) {
    return kelompuris_b3d_read(KELOMPURIS_STRICT, file, len, NULL, 0, NULL, 0, nodes, words, NULL, 0, NULL, 0, NULL, 0, NULL, 0, NULL, 0, NULL, 0, NULL, 0);
}

static void print_label(const char *about, const uint8_t *file, size_t len) {
    kelompuris_label label = kelompuris_b3d_label(file, len);
    printf("%s: %u %u, %u %u %u, %.*s\n", about, (unsigned)label.number, (unsigned)label.place, (unsigned)label.name_place,
           (unsigned)label.name_length, (unsigned)label.vertices, (int)label.name_length, (const char *)(file + label.name_place));
}

int main(void) {
    uint32_t nodes[KELOMPURIS_NODE_WORDS + 1];
    int i;
    for (i = 0; i <= KELOMPURIS_NODE_WORDS; i++) {
        nodes[i] = 77;
    }
    print("judge", kelompuris_b3d_judge(KELOMPURIS_STRICT, hall, sizeof hall));
    print("cut", kelompuris_b3d_judge(KELOMPURIS_STRICT, hall, 11));
    print("short", read_nodes(hall, sizeof hall, nodes, KELOMPURIS_NODE_WORDS - 1));
    printf("untouched: %u\n", (unsigned)nodes[0]);
    print("read", read_nodes(hall, sizeof hall, nodes, KELOMPURIS_NODE_WORDS + 1));
    printf("row:");
    for (i = 0; i <= KELOMPURIS_NODE_WORDS; i++) {
        printf(" %u", (unsigned)nodes[i]);
    }
    printf("\nname: %.*s\n", (int)nodes[1], (const char *)(hall + nodes[0]));
    print("strict", kelompuris_b3d_judge(KELOMPURIS_STRICT, brush, sizeof brush));
    print("lenient", kelompuris_b3d_judge(KELOMPURIS_LENIENT, brush, sizeof brush));
    print("mode 2", kelompuris_b3d_judge(2, brush, sizeof brush));
    print_label("label", hall, sizeof hall);
    print_label("no label", hall, 20);
    return 0;
}
