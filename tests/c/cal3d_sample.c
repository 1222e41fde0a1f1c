/* Reads samples from the current folder through the C interface: door.csf, a skeleton, and curtain.cmf, a mesh with springs. Prints the
 * answers, the bones, the vertices and the springs.
 * The test rust/kelompuris/tests/c_program.rs builds and runs it, as C and as C++. */
#include "kelompuris.h"
#include <assert.h>
#include <stdio.h>
#include <stdlib.h>

static_assert(sizeof(kelompuris_csf_answer) == 9 * 4, "nine words, no gap");
static_assert(sizeof(kelompuris_cmf_answer) == 10 * 4, "ten words, no gap");

enum { MOST = 1000, TABLES = 6, MARK = 77 };

static uint8_t file[MOST];
static uint32_t words[TABLES][MOST];

/* The size of a file, read into `file`. */
static size_t load(const char *name) {
    FILE *stream = fopen(name, "rb");
    size_t size;
    if (stream == NULL) {
        perror(name);
        exit(1);
    }
    size = fread(file, 1, MOST, stream);
    fclose(stream);
    return size;
}

static void mark(void) {
    int i, k;
    for (k = 0; k < TABLES; k++) {
        for (i = 0; i < MOST; i++) {
            words[k][i] = MARK;
        }
    }
}

/* Prints of each table whether it is as it was behind the rows that these counts say, or all of it where there are no counts. */
static void print_marked(const char *about, const uint32_t *counts, const int *widths, int tables) {
    int k;
    printf("%s:", about);
    for (k = 0; k < tables; k++) {
        size_t at = counts == NULL ? 0 : counts[k] * (size_t)widths[k];
        while (at < MOST && words[k][at] == MARK) {
            at++;
        }
        printf(" %d", at == MOST);
    }
    printf("\n");
}

static void print_numbers(const uint32_t *numbers, int count) {
    int i;
    for (i = 0; i < count; i++) {
        printf(" %d", (int)numbers[i]);
    }
    printf("\n");
}

static void print_skeleton(const char *about, kelompuris_csf_answer answer) {
    printf("%s: %u %u, %u %u %08x %08x %08x,", about, (unsigned)answer.number, (unsigned)answer.place, (unsigned)answer.head[0],
           (unsigned)answer.head[1], (unsigned)answer.head[2], (unsigned)answer.head[3], (unsigned)answer.head[4]);
    print_numbers(answer.counts, 2);
}

static void print_mesh(const char *about, kelompuris_cmf_answer answer) {
    printf("%s: %u %u, %u %u,", about, (unsigned)answer.number, (unsigned)answer.place, (unsigned)answer.head[0], (unsigned)answer.head[1]);
    print_numbers(answer.counts, 6);
}

/* Reads the skeleton; its number of bones. */
static uint32_t skeleton(void) {
    static const int widths[2] = {KELOMPURIS_CSF_BONE_WORDS, KELOMPURIS_CSF_CHILD_WORDS};
    size_t size = load("door.csf");
    kelompuris_csf_answer answer = kelompuris_csf_judge(file, size);
    size_t bones = answer.counts[0] * (size_t)KELOMPURIS_CSF_BONE_WORDS, children = answer.counts[1] * (size_t)KELOMPURIS_CSF_CHILD_WORDS;
    uint32_t i;
    print_skeleton("skeleton", answer);
    print_skeleton("cut", kelompuris_csf_judge(file, size - 1));
    print_skeleton("no file", kelompuris_csf_judge(NULL, 0));
    mark();
    print_skeleton("few bones", kelompuris_csf_read(file, size, words[0], bones - 1, words[1], children));
    print_skeleton("no child", kelompuris_csf_read(file, size, words[0], bones, NULL, 0));
    print_marked("untouched", NULL, widths, 2);
    print_skeleton("read", kelompuris_csf_read(file, size, words[0], MOST, words[1], MOST));
    print_marked("untouched behind", answer.counts, widths, 2);
    for (i = 0; i < answer.counts[0]; i++) {
        const uint32_t *bone = words[0] + i * KELOMPURIS_CSF_BONE_WORDS;
        printf("%.*s: parent %d, %u children:", (int)bone[1], (const char *)(file + bone[0]), (int)bone[16], (unsigned)bone[21]);
        print_numbers(words[1] + bone[22], (int)bone[21]);
    }
    return answer.counts[0];
}

/* Reads with as many words lent for each table, but for the faces. */
static kelompuris_cmf_answer read_mesh(size_t size, uint32_t bones, size_t faces) {
    return kelompuris_cmf_read(file, size, bones, words[0], MOST, words[1], MOST, words[2], MOST, words[3], MOST, words[4], MOST, words[5], faces);
}

static void mesh(uint32_t bones) {
    static const int widths[TABLES] = {KELOMPURIS_CMF_SUBMESH_WORDS,   KELOMPURIS_CMF_VERTEX_WORDS, KELOMPURIS_CMF_MAP_WORDS,
                                       KELOMPURIS_CMF_INFLUENCE_WORDS, KELOMPURIS_CMF_SPRING_WORDS, KELOMPURIS_CMF_FACE_WORDS};
    size_t size = load("curtain.cmf");
    kelompuris_cmf_answer answer = kelompuris_cmf_judge(file, size, bones);
    uint32_t i;
    print_mesh("mesh", answer);
    print_mesh("few bones", kelompuris_cmf_judge(file, size, 4));
    print_mesh("cut", kelompuris_cmf_judge(file, size - 1, bones));
    print_mesh("no file", kelompuris_cmf_judge(NULL, 0, bones));
    mark();
    print_mesh("few faces", read_mesh(size, bones, answer.counts[5] * (size_t)KELOMPURIS_CMF_FACE_WORDS - 1));
    print_mesh("no table", kelompuris_cmf_read(file, size, bones, NULL, 0, NULL, 0, NULL, 0, NULL, 0, NULL, 0, NULL, 0));
    print_marked("untouched", NULL, widths, TABLES);
    print_mesh("read", read_mesh(size, bones, MOST));
    print_marked("untouched behind", answer.counts, widths, TABLES);
    printf("submesh:");
    print_numbers(words[0], KELOMPURIS_CMF_SUBMESH_WORDS);
    for (i = 0; i < answer.counts[1]; i++) {
        const uint32_t *vertex = words[1] + i * KELOMPURIS_CMF_VERTEX_WORDS;
        const uint32_t *influence = words[3] + vertex[11] * KELOMPURIS_CMF_INFLUENCE_WORDS;
        printf("vertex: collapse %d, cloth weight %08x, %u influences", (int)vertex[6], (unsigned)vertex[9], (unsigned)vertex[8]);
        if (vertex[8] > 0) {
            printf(", first bone %u, weight %08x", (unsigned)influence[0], (unsigned)influence[1]);
        }
        printf("\n");
    }
    for (i = 0; i < answer.counts[4]; i++) {
        printf("spring:");
        print_numbers(words[4] + i * KELOMPURIS_CMF_SPRING_WORDS, 2);
    }
    printf("last face:");
    print_numbers(words[5] + (answer.counts[5] - 1) * KELOMPURIS_CMF_FACE_WORDS, KELOMPURIS_CMF_FACE_WORDS);
}

int main(void) {
    mesh(skeleton());
    return 0;
}
