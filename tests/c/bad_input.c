/* Calls every function of the header with what a careless caller may lend: nothing at all, files that are cut at every byte, tables and outputs
 * that are too short. All that is lent ends where a page begins that nobody may touch, so that a byte too far ends the program. Counts the
 * answers that are not the header's.
 * The test rust/kelompuris/tests/c_program.rs builds and runs it, as C and as C++, and looks that no function of the header is left out. */
#define _DEFAULT_SOURCE
#include "hall.h"
#include "kelompuris.h"
#include <stdio.h>
#include <stdlib.h>
#include <string.h>
#include <sys/mman.h>

enum { PAGE = 4096, PAGES = 4, MARK = 77, AREAS = 12 };

static unsigned checks, wrong;

/* Tells of an answer that is not the expected one. */
static void expect(const char *what, unsigned long got, unsigned long wanted) {
    checks++;
    if (got != wanted) {
        wrong++;
        printf("%s: %lu, not %lu\n", what, got, wanted);
    }
}

/* A number and its place. */
static void refused(const char *what, unsigned long number, unsigned long place, unsigned long wanted, unsigned long wanted_place) {
    expect(what, number, wanted);
    expect(what, place, wanted_place);
}

/* `size` bytes of an area, all marked, the last of which stands right before a page that may not be touched. */
static uint8_t *edge(int area, size_t size) {
    static uint8_t *areas[AREAS];
    if (areas[area] == NULL) {
        void *got = mmap(NULL, (PAGES + 1) * PAGE, PROT_READ | PROT_WRITE, MAP_PRIVATE | MAP_ANONYMOUS, -1, 0);
        if (got == MAP_FAILED || mprotect((uint8_t *)got + PAGES * PAGE, PAGE, PROT_NONE) != 0) {
            perror("mmap");
            exit(1);
        }
        areas[area] = (uint8_t *)got;
    }
    memset(areas[area], MARK, PAGES * PAGE);
    return areas[area] + PAGES * PAGE - size;
}

/* A copy of bytes in area 0. */
static const uint8_t *lent(const uint8_t *bytes, size_t size) {
    uint8_t *copy = edge(0, size);
    if (size > 0) {
        memcpy(copy, bytes, size);
    }
    return copy;
}

/* `count` words of an area. */
static uint32_t *words(int area, size_t count) {
    return (uint32_t *)(void *)edge(area, count * 4);
}

/* Whether `size` bytes are still marked. */
static int is_marked(const void *bytes, size_t size) {
    const uint8_t *each = (const uint8_t *)bytes;
    while (size > 0 && each[size - 1] == MARK) {
        size--;
    }
    return size == 0;
}

static size_t load(const char *name, uint8_t *file, size_t most) {
    FILE *stream = fopen(name, "rb");
    size_t size;
    if (stream == NULL) {
        perror(name);
        exit(1);
    }
    size = fread(file, 1, most, stream);
    fclose(stream);
    return size;
}

/* What a cut H is refused with: its size, or its first length. */
static unsigned long number_of_cut(size_t size) {
    return size < 12 ? 1 : 2;
}

static unsigned long place_of_cut(size_t size) {
    return size < 12 ? 0 : 4;
}

static void judged_and_read(void) {
    kelompuris_answer answer = kelompuris_b3d_judge(KELOMPURIS_STRICT, NULL, 0);
    size_t size;
    int k;
    refused("judge nothing", answer.number, answer.place, 1, 0);
    for (k = 0; k < 10; k++) {
        expect("counts of nothing", answer.counts[k], 0);
    }
    answer = kelompuris_b3d_read(KELOMPURIS_LENIENT, NULL, 0, NULL, 0, NULL, 0, NULL, 0, NULL, 0, NULL, 0, NULL, 0, NULL, 0, NULL, 0, NULL, 0, NULL, 0);
    refused("read nothing", answer.number, answer.place, 1, 0);
    for (size = 0; size < sizeof hall; size++) {
        uint32_t *nodes = words(1, KELOMPURIS_NODE_WORDS);
        answer = kelompuris_b3d_judge(7, lent(hall, size), size);
        refused("judge a cut file", answer.number, answer.place, number_of_cut(size), place_of_cut(size));
        answer = kelompuris_b3d_read(KELOMPURIS_STRICT, lent(hall, size), size, NULL, 0, NULL, 0, nodes, KELOMPURIS_NODE_WORDS, NULL, 0, NULL, 0,
                                     NULL, 0, NULL, 0, NULL, 0, NULL, 0, NULL, 0);
        refused("read a cut file", answer.number, answer.place, number_of_cut(size), place_of_cut(size));
        expect("a refused file's table", (unsigned long)is_marked(nodes, KELOMPURIS_NODE_WORDS * 4), 1);
    }
    for (size = 0; size <= KELOMPURIS_NODE_WORDS; size++) {
        uint32_t *nodes = words(1, size);
        int fits = size == KELOMPURIS_NODE_WORDS;
        answer = kelompuris_b3d_read(KELOMPURIS_STRICT, lent(hall, sizeof hall), sizeof hall, NULL, 0, NULL, 0, size == 0 ? NULL : nodes, size, NULL, 0,
                                     NULL, 0, NULL, 0, NULL, 0, NULL, 0, NULL, 0, NULL, 0);
        refused("read into a short table", answer.number, answer.place, fits ? 0 : KELOMPURIS_TOO_SHORT, fits ? 0 : 3);
        expect("a short table", (unsigned long)is_marked(nodes, size * 4), !fits);
    }
}

/* Writes a scene of no rows but `nodes`, which are `rows` rows in `len` words. */
static kelompuris_written write_nodes(const uint32_t *nodes, size_t len, uint32_t rows, const uint8_t *names, size_t names_len, uint8_t *out, size_t out_len) {
    uint32_t counts[10];
    memset(counts, 0, sizeof counts);
    counts[2] = rows;
    return kelompuris_b3d_write(KELOMPURIS_STRICT, NULL, 0, NULL, 0, nodes, len, NULL, 0, NULL, 0, NULL, 0, NULL, 0, NULL, 0, NULL, 0, NULL, 0, counts, 1, 0,
                                names, names_len, out, out_len);
}

static void written(void) {
    kelompuris_written answer = write_nodes(NULL, 0, 0, NULL, 0, NULL, 0);
    uint32_t *nodes;
    size_t size;
    refused("write nothing to nothing", answer.number, answer.place, KELOMPURIS_TOO_SHORT, 12);
    answer = write_nodes(NULL, 0, 1, NULL, 0, NULL, 0);
    refused("write a row that is not lent", answer.number, answer.place, KELOMPURIS_NO_SUCH_TABLES, 0);
    answer = write_nodes(NULL, 0, UINT32_MAX, NULL, 0, NULL, 0);
    refused("write rows that are not lent", answer.number, answer.place, KELOMPURIS_NO_SUCH_TABLES, 0);
    nodes = words(1, KELOMPURIS_NODE_WORDS);
    memset(nodes, 0, KELOMPURIS_NODE_WORDS * 4);
    nodes[KELOMPURIS_NODE_PARENT] = KELOMPURIS_NONE;
    for (size = 0; size <= 61; size++) {
        uint8_t *out = edge(2, size);
        answer = write_nodes(nodes, KELOMPURIS_NODE_WORDS, 1, NULL, 0, out, size);
        refused("write to a short output", answer.number, answer.place, size < 61 ? KELOMPURIS_TOO_SHORT : 0, size < 61 ? 61 : 0);
        expect("the size written", answer.size, size < 61 ? 0 : 61);
        expect("a short output", (unsigned long)is_marked(out, size), size < 61);
        answer = write_nodes(nodes, KELOMPURIS_NODE_WORDS - 1, 1, NULL, 0, out, size);
        refused("write a row that is cut", answer.number, answer.place, KELOMPURIS_NO_SUCH_TABLES, 0);
    }
    nodes[KELOMPURIS_NAME_LENGTH] = 4;
    for (size = 0; size < 4; size++) {
        answer = write_nodes(nodes, KELOMPURIS_NODE_WORDS, 1, lent(hall + 20, size), size, NULL, 0);
        refused("write a name that is cut", answer.number, answer.place, KELOMPURIS_NO_SUCH_TABLES, 0);
    }
    nodes[KELOMPURIS_NAME_PLACE] = UINT32_MAX;
    answer = write_nodes(nodes, KELOMPURIS_NODE_WORDS, 1, lent(hall, sizeof hall), sizeof hall, NULL, 0);
    refused("write a name far away", answer.number, answer.place, KELOMPURIS_NO_SUCH_TABLES, 0);
}

static void cleared_and_slips(void) {
    static const uint32_t most[KELOMPURIS_SLIP_NUMBERS] = {99, 8, 2097151, 2097151, 2097151, 2097151, 2097151, 2097151, 2097151, 2097151, 2097151, 2097151};
    uint32_t numbers[KELOMPURIS_SLIP_NUMBERS];
    kelompuris_written answer = kelompuris_b3d_clear(NULL, 0, NULL, 0);
    kelompuris_slip slip = kelompuris_slip_read(NULL, 0);
    uint8_t bytes[KELOMPURIS_SLIP_BYTES];
    size_t size;
    int k;
    refused("clear nothing", answer.number, answer.place, 1, 0);
    answer = kelompuris_b3d_slip(NULL, 0, NULL, 0);
    refused("the slip of nothing", answer.number, answer.place, 1, 0);
    refused("read no slip", slip.number, slip.place, KELOMPURIS_NO_SLIP, 0);
    for (size = 0; size < sizeof hall; size++) {
        uint8_t *out = edge(1, size);
        answer = kelompuris_b3d_clear(lent(hall, size), size, out, size);
        refused("clear a cut file", answer.number, answer.place, number_of_cut(size), place_of_cut(size));
        answer = kelompuris_b3d_slip(lent(hall, size), size, out, size);
        refused("the slip of a cut file", answer.number, answer.place, number_of_cut(size), place_of_cut(size));
        expect("a refused file's output", (unsigned long)is_marked(out, size), 1);
    }
    for (size = 0; size <= 61; size++) {
        uint8_t *out = edge(1, size);
        answer = kelompuris_b3d_clear(lent(hall, sizeof hall), sizeof hall, size == 0 ? NULL : out, size);
        refused("clear to a short output", answer.number, answer.place, size < 61 ? KELOMPURIS_TOO_SHORT : 0, size < 61 ? 61 : 0);
        expect("a short output", (unsigned long)is_marked(out, size), size < 61);
    }
    for (size = 0; size <= 12; size++) {
        uint8_t *out = edge(1, size);
        answer = kelompuris_b3d_slip(lent(hall, sizeof hall), sizeof hall, size == 0 ? NULL : out, size);
        refused("a slip to a short output", answer.number, answer.place, size < 12 ? KELOMPURIS_TOO_SHORT : 0, size < 12 ? 12 : 0);
        expect("a short output", (unsigned long)is_marked(out, size), size < 12);
    }
    for (size = 0; size <= KELOMPURIS_SLIP_BYTES; size++) {
        uint8_t *out = edge(1, size);
        int fits = size == KELOMPURIS_SLIP_BYTES;
        answer = kelompuris_slip_write(most, size == 0 ? NULL : out, size);
        refused("numbers to a short output", answer.number, answer.place, fits ? 0 : KELOMPURIS_TOO_SHORT, fits ? 0 : KELOMPURIS_SLIP_BYTES);
        expect("a short output", (unsigned long)is_marked(out, size), !fits);
        memcpy(bytes, out, size);
    }
    for (k = 0; k < KELOMPURIS_SLIP_NUMBERS; k++) {
        memcpy(numbers, most, sizeof numbers);
        numbers[k]++;
        answer = kelompuris_slip_write(numbers, NULL, 0);
        refused("a number out of its range", answer.number, answer.place, KELOMPURIS_NO_SLIP, (unsigned long)k);
    }
    for (size = 0; size < sizeof bytes; size++) {
        slip = kelompuris_slip_read(lent(bytes, size), size);
        refused("read a cut slip", slip.number, slip.place, KELOMPURIS_NO_SLIP, size);
    }
    slip = kelompuris_slip_read(lent(bytes, sizeof bytes), sizeof bytes);
    refused("read the longest slip", slip.number, slip.place, 0, 0);
}

static void labelled_compared_and_mended(void) {
    kelompuris_label label = kelompuris_b3d_label(NULL, 0);
    kelompuris_compared compared = kelompuris_b3d_compare(NULL, 0, NULL, 0, NULL, 0);
    kelompuris_mended mended = kelompuris_b3d_mend(NULL, 0, NULL, 0, NULL, 0);
    uint8_t bad[sizeof hall + 3], other[sizeof hall];
    size_t size;
    refused("the label of nothing", label.number, label.place, KELOMPURIS_NO_LABEL, 0);
    refused("compare nothing", compared.number, (unsigned long)compared.place, 1, 0);
    expect("which is nothing", compared.which, 1);
    refused("mend nothing", mended.number, mended.place, 1, 0);
    memcpy(bad, hall, sizeof hall);
    memcpy(bad + sizeof hall, "abc", 3);
    memcpy(other, hall, sizeof hall);
    other[20] = 'B';
    for (size = 0; size < sizeof hall; size++) {
        label = kelompuris_b3d_label(lent(hall, size), size);
        refused("the label of a cut file", label.number, label.place, KELOMPURIS_NO_LABEL, 0);
        expect("its name", (unsigned long)(label.name_place + label.name_length), 0);
        compared = kelompuris_b3d_compare(hall, sizeof hall, lent(hall, size), size, NULL, 0);
        refused("compare with a cut file", compared.number, (unsigned long)compared.place, number_of_cut(size), place_of_cut(size));
        expect("which is cut", compared.which, 2);
    }
    /* An entry: five numbers, and two names of four letters. */
    for (size = 0; size <= 13; size++) {
        uint8_t *out = edge(1, size);
        compared = kelompuris_b3d_compare(hall, sizeof hall, lent(other, sizeof other), sizeof other, size == 0 ? NULL : out, size);
        refused("a list in a short output", compared.number, (unsigned long)compared.place, size < 13 ? KELOMPURIS_TOO_SHORT : 0, size < 13 ? 13 : 0);
        expect("which is short", compared.which, 0);
        expect("a short output", (unsigned long)is_marked(out, size), size < 13);
    }
    for (size = 0; size <= sizeof hall; size++) {
        uint8_t *out = edge(1, size), *report = edge(2, 19);
        mended = kelompuris_b3d_mend(lent(bad, sizeof bad), sizeof bad, size == 0 ? NULL : out, size, report, 19);
        refused("a mended file in a short output", mended.number, mended.place, size < sizeof hall ? KELOMPURIS_TOO_SHORT : 0,
                size < sizeof hall ? sizeof hall : 0);
        expect("a short output", (unsigned long)is_marked(out, size), size < sizeof hall);
        expect("its report", (unsigned long)is_marked(report, 19), size < sizeof hall);
    }
    for (size = 0; size < 19; size++) {
        uint8_t *out = edge(1, sizeof hall), *report = edge(2, size);
        mended = kelompuris_b3d_mend(lent(bad, sizeof bad), sizeof bad, out, sizeof hall, size == 0 ? NULL : report, size);
        refused("a report in a short output", mended.number, mended.place, KELOMPURIS_TOO_SHORT, 19);
        expect("a short report", (unsigned long)is_marked(report, size), 1);
        expect("its mended file", (unsigned long)is_marked(out, sizeof hall), 1);
    }
}

static void in_pieces(void) {
    kelompuris_b3d_piece_state fresh = kelompuris_b3d_pieces_start(), strange;
    kelompuris_b3d_piece_fed fed;
    kelompuris_b3d_piece_closed closed;
    size_t records;
    for (records = 0; records <= KELOMPURIS_B3D_OPEN_CHUNKS; records++) {
        size_t bytes = records * sizeof(kelompuris_b3d_open_chunk);
        kelompuris_b3d_open_chunk *row = records == 0 ? NULL : (kelompuris_b3d_open_chunk *)(void *)edge(1, bytes);
        int fits = records == KELOMPURIS_B3D_OPEN_CHUNKS;
        fed = kelompuris_b3d_pieces_piece(fresh, row, records, NULL, 0);
        refused("no bytes", fed.number, fed.place, fits ? 0 : KELOMPURIS_TOO_SHORT, fits ? 0 : KELOMPURIS_B3D_OPEN_CHUNKS);
        fed = kelompuris_b3d_pieces_piece(fresh, row, records, lent(hall, sizeof hall), sizeof hall);
        refused("a row that is short", fed.number, fed.place, fits ? 0 : KELOMPURIS_TOO_SHORT, fits ? 0 : KELOMPURIS_B3D_OPEN_CHUNKS);
        closed = kelompuris_b3d_pieces_close(fed.state, row, records);
        refused("close with a row that is short", closed.answer.number, closed.answer.place, fits ? 0 : KELOMPURIS_TOO_SHORT,
                fits ? 0 : KELOMPURIS_B3D_OPEN_CHUNKS);
        if (fits) {
            fed = kelompuris_b3d_pieces_piece(closed.state, row, records, hall, sizeof hall);
            refused("a piece after the close", fed.number, fed.place, KELOMPURIS_CLOSED, 0);
            closed = kelompuris_b3d_pieces_close(closed.state, row, records);
            refused("a close after the close", closed.answer.number, closed.answer.place, KELOMPURIS_CLOSED, 0);
            /* A state that no call left: it is taken or refused, and the call ends. */
            memset(&strange, 0xFF, sizeof strange);
            fed = kelompuris_b3d_pieces_piece(strange, row, records, hall, sizeof hall);
            expect("a strange state", fed.number == 0 || fed.number == KELOMPURIS_CLOSED, 1);
            closed = kelompuris_b3d_pieces_close(strange, row, records);
            expect("a strange state's close", closed.answer.number <= 10 || closed.answer.number == KELOMPURIS_CLOSED, 1);
        }
    }
    closed = kelompuris_b3d_pieces_close(fresh, (kelompuris_b3d_open_chunk *)(void *)edge(1, KELOMPURIS_B3D_OPEN_CHUNKS * sizeof(kelompuris_b3d_open_chunk)),
                                         KELOMPURIS_B3D_OPEN_CHUNKS);
    refused("close at once", closed.answer.number, closed.answer.place, 1, 0);
}

static void row_by_row(void) {
    kelompuris_b3d_row_state nothing = kelompuris_b3d_rows_start(NULL, 0, 3), first, strange;
    kelompuris_b3d_row_given given = kelompuris_b3d_rows_next(NULL, 0, nothing, NULL, 0);
    size_t size;
    uint32_t table;
    refused("a row of nothing into nothing", given.number, given.place, KELOMPURIS_TOO_SHORT, KELOMPURIS_B3D_ROW);
    given = kelompuris_b3d_rows_next(NULL, 0, nothing, words(1, KELOMPURIS_B3D_ROW), KELOMPURIS_B3D_ROW);
    refused("a row of nothing", given.number, given.place, KELOMPURIS_CLOSED, 0);
    first = kelompuris_b3d_rows_start(lent(hall, sizeof hall), sizeof hall, 3);
    for (size = 0; size <= KELOMPURIS_B3D_ROW; size++) {
        uint32_t *row = words(1, size);
        int fits = size == KELOMPURIS_B3D_ROW;
        given = kelompuris_b3d_rows_next(lent(hall, sizeof hall), sizeof hall, first, size == 0 ? NULL : row, size);
        refused("a row that is short", given.number, given.place, fits ? 0 : KELOMPURIS_TOO_SHORT, fits ? 0 : KELOMPURIS_B3D_ROW);
        expect("a row is given", given.rows, fits);
        expect("a short row", (unsigned long)is_marked(row, size * 4), !fits);
    }
    for (table = 0; table <= 11; table++) {
        for (size = 0; size <= sizeof hall; size++) {
            uint32_t *row = words(1, KELOMPURIS_B3D_ROW);
            int starts = table >= 1 && table <= 10 && size >= 12;
            first = kelompuris_b3d_rows_start(lent(hall, size), size, table);
            given = kelompuris_b3d_rows_next(lent(hall, size), size, first, row, KELOMPURIS_B3D_ROW);
            refused("a row of a cut file", given.number, given.place, starts ? 0 : KELOMPURIS_CLOSED, 0);
            expect("its row", (unsigned long)is_marked(row, KELOMPURIS_B3D_ROW * 4), given.rows == 0);
            /* A state that no call left: it is taken or refused, and the call ends. */
            memset(&strange, (int)size, sizeof strange);
            strange.table = table;
            strange.depth = size % 18;
            given = kelompuris_b3d_rows_next(lent(hall, size), size, strange, row, KELOMPURIS_B3D_ROW);
            expect("a strange state", given.number == 0 || given.number == KELOMPURIS_CLOSED, 1);
        }
    }
}

static void of_cal3d(void) {
    static uint8_t file[PAGES * PAGE];
    kelompuris_csf_answer bones = kelompuris_csf_judge(NULL, 0);
    kelompuris_cmf_answer mesh = kelompuris_cmf_judge(NULL, 0, 0);
    size_t len = load("door.csf", file, sizeof file), size;
    uint32_t *tables[6];
    int k;
    refused("judge no skeleton", bones.number, bones.place, 1, 0);
    refused("judge no mesh", mesh.number, mesh.place, 1, 0);
    bones = kelompuris_csf_read(NULL, 0, NULL, 0, NULL, 0);
    refused("read no skeleton", bones.number, bones.place, 1, 0);
    mesh = kelompuris_cmf_read(NULL, 0, 0, NULL, 0, NULL, 0, NULL, 0, NULL, 0, NULL, 0, NULL, 0);
    refused("read no mesh", mesh.number, mesh.place, 1, 0);
    for (size = 0; size < len; size++) {
        bones = kelompuris_csf_judge(lent(file, size), size);
        expect("a cut skeleton", bones.number, size < 12 ? 1 : 5);
    }
    bones = kelompuris_csf_judge(file, len);
    refused("the door", bones.number, bones.place, 0, 0);
    for (k = 0; k < 2; k++) {
        size_t need[2];
        need[0] = bones.counts[0] * (size_t)KELOMPURIS_CSF_BONE_WORDS;
        need[1] = bones.counts[1] * (size_t)KELOMPURIS_CSF_CHILD_WORDS;
        need[k]--;
        tables[0] = words(1, need[0]);
        tables[1] = words(2, need[1]);
        {
            kelompuris_csf_answer answer = kelompuris_csf_read(lent(file, len), len, tables[0], need[0], tables[1], need[1]);
            refused("a short table of a skeleton", answer.number, answer.place, KELOMPURIS_TOO_SHORT, (unsigned long)k + 1);
        }
        expect("a short table", (unsigned long)(is_marked(tables[0], need[0] * 4) && is_marked(tables[1], need[1] * 4)), 1);
    }
    len = load("curtain.cmf", file, sizeof file);
    for (size = 0; size < len; size++) {
        mesh = kelompuris_cmf_judge(lent(file, size), size, 6);
        expect("a cut mesh", mesh.number, size < 12 ? 1 : 5);
    }
    mesh = kelompuris_cmf_judge(file, len, 0);
    expect("a mesh for no bones", mesh.number, KELOMPURIS_NO_SUCH_ID);
    mesh = kelompuris_cmf_judge(file, len, 6);
    refused("the curtain", mesh.number, mesh.place, 0, 0);
    for (k = 0; k < 6; k++) {
        static const size_t widths[6] = {KELOMPURIS_CMF_SUBMESH_WORDS,   KELOMPURIS_CMF_VERTEX_WORDS, KELOMPURIS_CMF_MAP_WORDS,
                                         KELOMPURIS_CMF_INFLUENCE_WORDS, KELOMPURIS_CMF_SPRING_WORDS, KELOMPURIS_CMF_FACE_WORDS};
        kelompuris_cmf_answer answer;
        size_t need[6];
        int each, all = 1;
        for (each = 0; each < 6; each++) {
            need[each] = mesh.counts[each] * widths[each] - (each == k);
            tables[each] = words(1 + each, need[each]);
        }
        answer = kelompuris_cmf_read(lent(file, len), len, 6, tables[0], need[0], tables[1], need[1], tables[2], need[2], tables[3], need[3], tables[4],
                                     need[4], tables[5], need[5]);
        refused("a short table of a mesh", answer.number, answer.place, KELOMPURIS_TOO_SHORT, (unsigned long)k + 1);
        for (each = 0; each < 6; each++) {
            all = all && is_marked(tables[each], need[each] * 4);
        }
        expect("a short table", (unsigned long)all, 1);
    }
}

int main(void) {
    judged_and_read();
    written();
    cleared_and_slips();
    labelled_compared_and_mended();
    in_pieces();
    row_by_row();
    of_cal3d();
    printf("%u answers, %u wrong\n", checks, wrong);
    return wrong != 0;
}
