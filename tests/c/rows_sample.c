/* Reads tables of a scene row by row through the C interface, with one row lent: the nodes of kitchen.b3d in the current folder, and file H of paper 01 with
 * what is refused. Prints the answers. The test rust/kelompuris/tests/c_program.rs builds and runs it, as C and as C++. */
#include "hall.h"
#include "kelompuris.h"
#include <assert.h>
#include <stdio.h>
#include <stdlib.h>

static_assert(sizeof(kelompuris_b3d_row_state) == 4 * 4 + 15 * sizeof(size_t) + 16 * sizeof(size_t) + 16 * 4, "numbers, no gap");

enum { WORDS = KELOMPURIS_B3D_ROW + 1, MOST = 4096, MARK = 77 };

static uint32_t row[WORDS];

static void mark(void) {
    int i;
    for (i = 0; i < WORDS; i++) {
        row[i] = MARK;
    }
}

static void print_given(const char *about, const kelompuris_b3d_row_given *given) {
    printf("%s: %u %u %u\n", about, (unsigned)given->number, (unsigned)given->place, (unsigned)given->rows);
}

static void print_nodes(const uint8_t *file, size_t len) {
    kelompuris_b3d_row_given given;
    given.state = kelompuris_b3d_rows_start(file, len, 3);
    while ((given = kelompuris_b3d_rows_next(file, len, given.state, row, WORDS)).rows == 1) {
        const char *name = (const char *)file + row[KELOMPURIS_NAME_PLACE];
        printf("%s, parent %d, %u below\n", name, (int)row[KELOMPURIS_NODE_PARENT], (unsigned)row[KELOMPURIS_NODE_BELOW]);
    }
    print_given("end", &given);
}

int main(void) {
    static uint8_t file[MOST];
    FILE *stream = fopen("kitchen.b3d", "rb");
    kelompuris_b3d_row_state first;
    kelompuris_b3d_row_given given;
    uint32_t table;
    int i;
    if (stream == NULL) {
        perror("kitchen.b3d");
        return 1;
    }
    print_nodes(file, fread(file, 1, MOST, stream));
    fclose(stream);
    mark();
    first = kelompuris_b3d_rows_start(hall, sizeof hall, 3);
    given = kelompuris_b3d_rows_next(hall, sizeof hall, first, row, KELOMPURIS_B3D_ROW - 1);
    print_given("41 words", &given);
    printf("untouched: %u\n", (unsigned)row[0]);
    given = kelompuris_b3d_rows_next(hall, sizeof hall, first, row, KELOMPURIS_B3D_ROW);
    print_given("node", &given);
    for (i = 0; i <= KELOMPURIS_NODE_WORDS; i++) {
        printf(" %u", (unsigned)row[i]);
    }
    printf("\n");
    given = kelompuris_b3d_rows_next(hall, sizeof hall, given.state, row, KELOMPURIS_B3D_ROW);
    print_given("then", &given);
    given = kelompuris_b3d_rows_next(hall, 11, given.state, row, KELOMPURIS_B3D_ROW);
    print_given("another file", &given);
    for (table = 0; table <= 11; table++) {
        first = kelompuris_b3d_rows_start(hall, sizeof hall, table);
        given = kelompuris_b3d_rows_next(hall, sizeof hall, first, row, KELOMPURIS_B3D_ROW);
        printf("table %u: %u %u %u\n", (unsigned)table, (unsigned)given.number, (unsigned)given.place, (unsigned)given.rows);
    }
    return 0;
}
