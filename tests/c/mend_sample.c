/* Mends file H of paper 01 with a wrong first length and spare bytes through the C interface. Prints the answers and the report.
 * The test rust/kelompuris/tests/c_program.rs builds and runs it, as C and as C++. */
#include "hall.h"
#include "kelompuris.h"
#include <assert.h>
#include <stdio.h>
#include <string.h>

static_assert(sizeof(kelompuris_mended) == 4 * 4, "four words, no gap");

enum { OUT = 70, REPORT = 24, MARK = 77 };

static uint8_t out[OUT], report[REPORT];

/* Mends a file and prints the answer, whether H is what came of it, and the report; then marks all again. */
static void print_mended(const char *about, const uint8_t *file, size_t len, size_t room, size_t report_room) {
    kelompuris_mended answer = kelompuris_b3d_mend(file, len, out, room, report, report_room);
    int i;
    printf("%s: %u %u %u %u, %s,", about, (unsigned)answer.number, (unsigned)answer.place, (unsigned)answer.size,
           (unsigned)answer.report_size, memcmp(out, hall, sizeof hall) == 0 ? "H" : "not H");
    for (i = 0; i < REPORT; i++) {
        printf(" %d", report[i]);
    }
    printf("\n");
    memset(out, MARK, sizeof out);
    memset(report, MARK, sizeof report);
}

int main(void) {
    uint8_t bad[sizeof hall + 3];
    memcpy(bad, hall, sizeof hall);
    memcpy(bad + sizeof hall, "abc", 3);
    bad[4] = 60;
    memset(out, MARK, sizeof out);
    memset(report, MARK, sizeof report);
    print_mended("whole", hall, sizeof hall, OUT, 0);
    print_mended("spare bytes", bad, sizeof bad, OUT, REPORT);
    bad[4] = 7;
    print_mended("and length", bad, sizeof bad, OUT, REPORT);
    print_mended("short", bad, sizeof bad, 64, 0);
    print_mended("short report", bad, sizeof bad, 65, 18);
    bad[8] = 100;
    print_mended("version 100", bad, sizeof bad, OUT, REPORT);
    print_mended("no file", NULL, 0, 0, 0);
    return 0;
}
