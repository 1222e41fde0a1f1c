/* How the programs print an answer. */
#include "kelompuris.h"
#include <stdio.h>

static void print(const char *about, kelompuris_answer answer) {
    int i;
    printf("%s: %u %u, %u %u,", about, (unsigned)answer.number, (unsigned)answer.place,
           (unsigned)answer.version, (unsigned)answer.n_texs);
    for (i = 0; i < 10; i++) {
        printf(" %u", (unsigned)answer.counts[i]);
    }
    printf("\n");
}
