/* Drives an emitted controller for a day, and writes what `vsi drive` writes at the highest class: a line for each cycle
   with every global. The Makefile names the controller by HEADER, RUN, GLOBALS and BUDGET, and makes three files of
   statements: begin.h sets the globals of the first store, day.h sets those of each line and does its cycle, and show.h
   writes the globals. */
#include HEADER
#include "board.h"

static int64_t globals[GLOBALS];

/* What stands before the next setting of the line. */
static const char *before;

/* Writes a word in decimal. Its size is counted below 0, where each word has one. */
static void put_word(int64_t word)
{
    char digits[21];
    char *first = digits + 20;
    int64_t rest = word < 0 ? word : -word;
    *first = 0;
    do {
        *--first = (char)('0' - rest % 10);
        rest /= 10;
    } while (rest != 0);
    if (word < 0) *--first = '-';
    put(first);
}

/* Writes one global of the line. */
static void show(const char *name, int64_t word)
{
    put(before);
    put(name);
    put(" = ");
    put_word(word);
    before = " ";
}

/* Does a cycle, and writes its line. */
static void cycle(void)
{
    if (RUN(globals, BUDGET)) {
        put("out of budget\n");
        return;
    }
    before = "";
#include "show.h"
    put("\n");
}

int main(void)
{
#include "begin.h"
#include "day.h"
    return 0;
}
