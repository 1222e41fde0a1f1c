/* Hands file H of paper 01 over in pieces through the C interface: one byte at a time, cut at every place, with a row of 18 records, after the close, and
 * cut short. Counts the calls that changed what they must not.
 * The test rust/kelompuris/tests/c_program.rs builds and runs it, as C and as C++. */
#include "hall.h"
#include "answer.h"
#include "kelompuris.h"
#include <assert.h>
#include <stdio.h>
#include <string.h>

static_assert(sizeof(kelompuris_b3d_open_chunk) == 11 * sizeof(size_t), "eleven numbers, no gap");
static_assert(sizeof(kelompuris_b3d_piece_state) == 8 + 41 * sizeof(size_t), "forty-three numbers, no gap");

static kelompuris_b3d_open_chunk row[KELOMPURIS_B3D_OPEN_CHUNKS];

/* The state after `len` bytes, handed over in pieces of `most`. */
static kelompuris_b3d_piece_state after(kelompuris_b3d_piece_state state, const uint8_t *bytes, size_t len, size_t most) {
    size_t at;
    for (at = 0; at < len; at += most) {
        size_t n = len - at < most ? len - at : most;
        kelompuris_b3d_piece_fed fed = kelompuris_b3d_pieces_piece(state, row, KELOMPURIS_B3D_OPEN_CHUNKS, bytes + at, n);
        assert(fed.number == 0 && fed.place == 0);
        state = fed.state;
    }
    return state;
}

int main(void) {
    kelompuris_b3d_open_chunk before[KELOMPURIS_B3D_OPEN_CHUNKS];
    kelompuris_b3d_piece_state state;
    kelompuris_b3d_piece_fed fed;
    kelompuris_b3d_piece_closed closed;
    size_t cut, changed = 0, same = 0;
    memset(row, 77, sizeof row);
    state = after(kelompuris_b3d_pieces_start(), hall, sizeof hall, 1);
    memcpy(before, row, sizeof row);
    closed = kelompuris_b3d_pieces_close(state, row, KELOMPURIS_B3D_OPEN_CHUNKS);
    print("byte by byte", closed.answer);
    changed += memcmp(before, row, sizeof row) != 0;
    fed = kelompuris_b3d_pieces_piece(closed.state, row, KELOMPURIS_B3D_OPEN_CHUNKS, hall, sizeof hall);
    printf("piece after the close: %u %u\n", (unsigned)fed.number, (unsigned)fed.place);
    changed += memcmp(&closed.state, &fed.state, sizeof fed.state) != 0;
    print("close after the close", kelompuris_b3d_pieces_close(closed.state, row, KELOMPURIS_B3D_OPEN_CHUNKS).answer);
    fed = kelompuris_b3d_pieces_piece(state, row, KELOMPURIS_B3D_OPEN_CHUNKS - 1, hall, sizeof hall);
    printf("18 records: %u %u\n", (unsigned)fed.number, (unsigned)fed.place);
    changed += memcmp(&state, &fed.state, sizeof fed.state) != 0;
    print("close with none", kelompuris_b3d_pieces_close(state, NULL, 0).answer);
    changed += memcmp(before, row, sizeof row) != 0;
    printf("changed: %u\n", (unsigned)changed);
    for (cut = 0; cut <= sizeof hall; cut++) {
        state = after(kelompuris_b3d_pieces_start(), hall, cut, sizeof hall);
        fed = kelompuris_b3d_pieces_piece(state, row, KELOMPURIS_B3D_OPEN_CHUNKS, NULL, 0);
        state = after(fed.state, hall + cut, sizeof hall - cut, sizeof hall);
        same += kelompuris_b3d_pieces_close(state, row, KELOMPURIS_B3D_OPEN_CHUNKS).answer.number == 0;
    }
    printf("cuts accepted: %u\n", (unsigned)same);
    state = after(kelompuris_b3d_pieces_start(), hall, 60, 7);
    print("cut short", kelompuris_b3d_pieces_close(state, row, KELOMPURIS_B3D_OPEN_CHUNKS).answer);
    return 0;
}
