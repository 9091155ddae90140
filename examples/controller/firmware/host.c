/* The board is this computer. */
#include <stdio.h>

#include "board.h"

void put(const char *text)
{
    fputs(text, stdout);
}
