/* Drives the heater of examples/controller from C: loads its image once, then sets its sensors and reads its actuator
   once a cycle. `crates/vsi_c/include/vsi.h` tells of each call, and docs/CONTROLLERS.md how this is built.

     heater IMAGE [CYCLES]

   prints a line for each of eleven cycles and then what is asked of the calls beyond them, or does so many cycles of one
   reading and prints nothing. Its status is 0, or 1 where the image isn't loaded or a run doesn't halt. */
#include <stdio.h>
#include <stdlib.h>

#include "vsi.h"

/* The numbers of the heater's globals, in the order of its text. */
enum { TEMPERATURE, TARGET, HEATER, USED, KEY, SEAL, GLOBALS };

/* Room for the image and for a run: nothing of it is on the heap. */
enum { ROOM = 64, SLOTS = 16, BYTES = 1024 };

static struct vsi_cell code[ROOM];
static struct vsi_shape shape;
static int64_t slots[SLOTS], globals[SLOTS];

/* The bytes of an image's file. */
static uint8_t bytes[BYTES];
static size_t length;

/* Reads the file, and says whether it has an image that fits. */
static int is_loaded(const char *path) {
    FILE *file = fopen(path, "rb");
    if (!file) return 0;
    length = fread(bytes, 1, BYTES, file);
    fclose(file);
    enum vsi_status status = vsi_load(bytes, length, code, ROOM, &shape);
    if (status != VSI_DONE) fprintf(stderr, "not loaded: %d\n", (int)status);
    return status == VSI_DONE && shape.globals == GLOBALS && shape.slots <= SLOTS;
}

/* The word of a global. */
static long long word(size_t number) {
    int64_t found = 0;
    vsi_get(&shape, globals, number, &found);
    return found;
}

/* One cycle with these readings. */
static enum vsi_status cycle(int64_t temperature, int64_t target, uint64_t budget) {
    vsi_set(&shape, globals, TEMPERATURE, temperature);
    vsi_set(&shape, globals, TARGET, target);
    return vsi_run(&shape, code, slots, globals, budget);
}

/* A day's readings, with a line for each. */
static int day(void) {
    static const int64_t readings[][2] = {{17, 20}, {17, 20}, {19, 18}, {18, 18}, {17, 18}, {16, 18},
                                          {16, 21}, {17, 21}, {20, 21}, {21, 21}, {22, 21}};
    vsi_set(&shape, globals, KEY, 5);
    for (size_t at = 0; at < sizeof readings / sizeof *readings; at++) {
        if (cycle(readings[at][0], readings[at][1], 100) != VSI_DONE) return 1;
        printf("temperature = %lld target = %lld heater = %lld used = %lld\n", word(TEMPERATURE), word(TARGET),
               word(HEATER), word(USED));
        if (at < 2) printf("seal = %lld\n", word(SEAL));
    }
    return 0;
}

/* What is answered where something doesn't fit. */
static void faults(void) {
    int64_t found = 7;
    struct vsi_shape other = shape;
    struct vsi_cell none[1] = {{0, 0, 0, 0}};
    /* From 17 and 20 the heater does 60 instructions. */
    printf("budget 59: %d", (int)cycle(17, 20, 59));
    printf(" heater = %lld\n", word(HEATER));
    printf("budget 60: %d", (int)cycle(17, 20, 60));
    printf(" heater = %lld\n", word(HEATER));
    printf("budget 0: %d\n", (int)vsi_run(&shape, code, slots, globals, 0));
    printf("past the last: %d", (int)vsi_set(&shape, globals, GLOBALS, 1));
    printf(" %d", (int)vsi_get(&shape, globals, GLOBALS, &found));
    printf(" and %lld\n", (long long)found);
    printf("null: %d\n", (int)vsi_run(&shape, code, slots, NULL, 100));
    printf("room for one: %d", (int)vsi_load(bytes, length, none, 1, &other));
    printf(" and %zu instructions, %zu slots\n", other.code, other.slots);
    printf("records of no image: %d", (int)vsi_c_run(none, 1, slots, shape.slots, globals, GLOBALS, 100));
    printf(" heater = %lld\n", word(HEATER));
    printf("fewer slots than globals: %d\n", (int)vsi_c_run(code, shape.code, slots, 3, globals, GLOBALS, 100));
    printf("cut short: %d\n", (int)vsi_load(bytes, length - 1, code, ROOM, &other));
    bytes[length - 1] = 4; /* An ADD in the place of the last HALT. */
    printf("not valid: %d\n", (int)vsi_load(bytes, length, code, ROOM, &other));
}

int main(int count, char **words) {
    if (count < 2 || !is_loaded(words[1])) return 1;
    if (count < 3) {
        if (day()) return 1;
        faults();
        return 0;
    }
    for (long left = atol(words[2]); left > 0; left--)
        if (cycle(17, 20, 100) != VSI_DONE) return 1;
    return 0;
}
