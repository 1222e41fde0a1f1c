/* File H of paper 01, all floats 0: a scene of version 1 with one node, "Hall". */
#ifndef HALL_H
#define HALL_H

#include <stdint.h>

static const uint8_t hall[65] = {
    'B', 'B', '3', 'D', 57, 0, 0, 0, 1, 0, 0, 0,
    'N', 'O', 'D', 'E', 45, 0, 0, 0, 'H', 'a', 'l', 'l', 0
    /* forty zero bytes: ten floats */
};

#endif
