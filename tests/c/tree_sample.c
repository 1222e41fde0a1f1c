/* What a terminal does with a scene: judges it, lends tables of the right size, reads, prints the nodes as a tree with their meshes, clears it, and judges it
 * again as it comes over a lead. The scene is the first argument, or kitchen.b3d in the current folder.
 * The test rust/kelompuris/tests/c_program.rs builds and runs it, as C and as C++. */
#include "kelompuris.h"
#include <stdio.h>
#include <stdlib.h>

enum { TABLES = 10, MOST = 16777216 };

static const size_t piece = 200;

static const size_t widths[TABLES] = {
    KELOMPURIS_TEXTURE_WORDS, KELOMPURIS_BRUSH_WORDS, KELOMPURIS_NODE_WORDS, KELOMPURIS_MESH_WORDS, KELOMPURIS_VERTEX_WORDS,
    KELOMPURIS_TRIANGLE_SET_WORDS, KELOMPURIS_TRIANGLE_WORDS, KELOMPURIS_WEIGHT_WORDS, KELOMPURIS_KEY_LIST_WORDS, KELOMPURIS_KEY_WORDS};

/* The bytes of a file, one more than the limit at most, and how many they are. */
static uint8_t *load(const char *name, size_t *size) {
    uint8_t *file = (uint8_t *)malloc(MOST + 1);
    FILE *stream = fopen(name, "rb");
    if (file == NULL || stream == NULL) {
        perror(name);
        exit(2);
    }
    *size = fread(file, 1, MOST + 1, stream);
    fclose(stream);
    return file;
}

static void print_name(const uint8_t *file, const uint32_t *row) {
    uint32_t i;
    for (i = 0; i < row[KELOMPURIS_NAME_LENGTH]; i++) {
        uint8_t byte = file[row[KELOMPURIS_NAME_PLACE] + i];
        putchar(byte < 32 || byte > 126 ? '?' : byte);
    }
}

/* Prints the node of a row and those below it, and gives the row behind them. */
static uint32_t print_branch(const uint8_t *file, uint32_t *const tables[TABLES], uint32_t row, int level) {
    const uint32_t *node = tables[2] + (size_t)row * KELOMPURIS_NODE_WORDS;
    const uint32_t end = row + 1 + node[KELOMPURIS_NODE_BELOW];
    printf("%*s", 2 * level, "");
    print_name(file, node);
    if (node[KELOMPURIS_NODE_KIND] == KELOMPURIS_MESH) {
        const uint32_t *mesh = tables[3] + (size_t)node[KELOMPURIS_NODE_FIRST] * KELOMPURIS_MESH_WORDS;
        printf(": mesh, %u vertices", (unsigned)mesh[KELOMPURIS_MESH_VERTICES]);
    } else if (node[KELOMPURIS_NODE_KIND] == KELOMPURIS_BONE) {
        printf(": bone, %u weights", (unsigned)node[KELOMPURIS_NODE_COUNT]);
    }
    printf("\n");
    for (row++; row < end;) {
        row = print_branch(file, tables, row, level + 1);
    }
    return end;
}

/* Lends no output to learn the size, then just that much. */
static void send_cleared(const uint8_t *file, size_t size) {
    kelompuris_written asked = kelompuris_b3d_clear(file, size, NULL, 0);
    if (asked.number == KELOMPURIS_TOO_SHORT) {
        uint8_t *copy = (uint8_t *)malloc(asked.place);
        kelompuris_written written = kelompuris_b3d_clear(file, size, copy, asked.place);
        printf("cleared: %u, %u bytes of %u\n", (unsigned)written.number, (unsigned)written.size, (unsigned)size);
        free(copy);
    }
}

static void judge_over_a_lead(const uint8_t *file, size_t size) {
    kelompuris_b3d_open_chunk row[KELOMPURIS_B3D_OPEN_CHUNKS];
    kelompuris_b3d_piece_state state = kelompuris_b3d_pieces_start();
    kelompuris_answer answer;
    size_t at;
    for (at = 0; at < size; at += piece) {
        size_t n = size - at < piece ? size - at : piece;
        state = kelompuris_b3d_pieces_piece(state, row, KELOMPURIS_B3D_OPEN_CHUNKS, file + at, n).state;
    }
    answer = kelompuris_b3d_pieces_close(state, row, KELOMPURIS_B3D_OPEN_CHUNKS).answer;
    printf("over a lead: %u at %u\n", (unsigned)answer.number, (unsigned)answer.place);
}

int main(int argc, char **argv) {
    size_t size, words[TABLES];
    uint8_t *file = load(argc > 1 ? argv[1] : "kitchen.b3d", &size);
    uint32_t *t[TABLES];
    kelompuris_answer answer = kelompuris_b3d_judge(KELOMPURIS_STRICT, file, size);
    int k;
    printf("judged: %u at %u\n", (unsigned)answer.number, (unsigned)answer.place);
    if (answer.number != KELOMPURIS_ACCEPTED) {
        free(file);
        return 1;
    }
    for (k = 0; k < TABLES; k++) {
        words[k] = answer.counts[k] * widths[k];
        t[k] = (uint32_t *)calloc(words[k] + 1, sizeof(uint32_t));
    }
    answer = kelompuris_b3d_read(
        KELOMPURIS_STRICT, file, size, t[0], words[0], t[1], words[1], t[2], words[2], t[3], words[3], t[4], words[4],
        t[5], words[5], t[6], words[6], t[7], words[7], t[8], words[8], t[9], words[9]);
    printf("read: %u at %u\n", (unsigned)answer.number, (unsigned)answer.place);
    if (answer.number == KELOMPURIS_ACCEPTED && answer.counts[2] > 0) {
        print_branch(file, t, 0, 0);
    }
    send_cleared(file, size);
    judge_over_a_lead(file, size);
    for (k = 0; k < TABLES; k++) {
        free(t[k]);
    }
    free(file);
    return 0;
}
