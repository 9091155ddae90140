#!/usr/bin/env python3
"""Writes the three programs of images.py as a person writes them in C: python3 by_hand.py > by_hand.c."""

GROUPS = 4_000


def main():
    print("""\
#include "by_hand.h"

void counting_by_hand(int64_t globals[2])
{
    int64_t i = globals[0];
    uint64_t a = (uint64_t)globals[1];
    while (i < 20000000) {
        a = a * 3 + (uint64_t)i;
        i++;
    }
    globals[0] = i;
    globals[1] = (int64_t)a;
}

void nested_by_hand(int64_t globals[5])
{
    int64_t i = globals[0], j = globals[1], below = globals[2], on = globals[3], above = globals[4];
    while (i < 3000) {
        j = 0;
        while (j < 3500) {
            if (j < i) below++;
            else if (j == i) on++;
            else above++;
            j++;
        }
        i++;
    }
    globals[0] = i;
    globals[1] = j;
    globals[2] = below;
    globals[3] = on;
    globals[4] = above;
}

void straight_by_hand(int64_t globals[3])
{
    int64_t i = globals[0];
    uint64_t x = (uint64_t)globals[1], y = (uint64_t)globals[2];
    while (i < 4000) {""")
    for k in range(GROUPS):
        print(f"        x = (x + {k}) * y - x;\n        y = y + (x - (y - {k}));")
    print("""\
        i++;
    }
    globals[0] = i;
    globals[1] = (int64_t)x;
    globals[2] = (int64_t)y;
}""")


main()
