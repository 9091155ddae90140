/* The programs of images.py, written by hand. Each begins with its globals and leaves its last words there. */
#ifndef BY_HAND_H
#define BY_HAND_H

#include <stdint.h>

void counting_by_hand(int64_t globals[2]);
void nested_by_hand(int64_t globals[5]);
void straight_by_hand(int64_t globals[3]);

#endif
