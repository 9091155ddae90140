/* The stack machine of vsi for programs in C, on x86-64: load an image, set and read its globals by number, and run it
   for at most so many instructions.

   Who owns what. Every array is the caller's: static, on the stack or on the heap, as the caller likes. A call keeps no
   pointer when it returns, and nothing has to be freed. `vsi_load` asks `malloc` for memory while it reads the bytes,
   and frees all of it before it returns. No other function allocates.

   What may be handed over. Any bytes, any records and any numbers: what doesn't fit is answered with a status. Each
   pointer has to point to as many items as the call is told, in memory that it may read and, where it is no pointer to
   const, write, and is aligned as its type asks. A null pointer is answered with VSI_NULL, also where it stands for no
   items. The arrays of one call don't overlap, and until it returns nobody else writes them, or reads those that it may
   write.

   Threads. There is no state besides the arrays, so that calls over arrays of their own may run in any threads at once.
   Two runs may share the records of one image. No function may be called from a signal handler, and `vsi_load` not from
   the forked child of a process with threads.

   Memory. `malloc`, `realloc` and `free` come from one allocator, which aligns a block to each power of two up to 16
   that divides its size. A call needs about 8 KiB of stack. Nothing is printed, no file is opened, errno isn't set by
   these functions themselves, and none of them exits, aborts or jumps.

   Time. A run takes at most `budget` instructions. How long that takes may depend on secret words. */
#ifndef VSI_H
#define VSI_H

#include <stddef.h>
#include <stdint.h>

#ifdef __cplusplus
extern "C" {
#endif

/* What a call answers. */
enum vsi_status {
    VSI_DONE = 0,          /* The image is loaded, the run halted, the word is set or read. */
    VSI_OUT_OF_BUDGET = 1, /* The budget was spent before the run halted. */
    VSI_NO_IMAGE = 2,      /* The bytes are no image's: `vsi list` tells the first fault. */
    VSI_INVALID = 3,       /* The bytes are an image's that isn't valid: `vsi list` tells the first fault. */
    VSI_NO_MEMORY = 4,     /* There was no memory to read the image. */
    VSI_NO_ROOM = 5,       /* The image has more instructions than the array. */
    VSI_MISFIT = 6,        /* The lengths are no image's, or the number is past the last global. */
    VSI_BROKEN = 7,        /* The records are no image's, and the run came to where it can't go on. */
    VSI_NULL = 8           /* A pointer is null. */
};

/* An instruction, as `vsi_load` writes it. */
struct vsi_cell {
    uint16_t op;
    uint16_t slot;
    uint32_t target;
    int64_t word;
};

/* How many globals, slots and instructions an image has: at most 256, 512 and 65,535. */
struct vsi_shape {
    size_t globals;
    size_t slots;
    size_t code;
};

/* The library's own names. The functions below test for null pointers and call these. */
uint32_t vsi_c_load(const uint8_t *bytes, size_t length, struct vsi_cell *code, size_t room, struct vsi_shape *shape);
uint32_t vsi_c_run(const struct vsi_cell *code, size_t count, int64_t *slots, size_t slot_count, int64_t *globals,
                   size_t global_count, uint64_t budget);
uint32_t vsi_c_set(int64_t *globals, size_t global_count, size_t number, int64_t word);
uint32_t vsi_c_get(const int64_t *globals, size_t global_count, size_t number, int64_t *word);

/* Reads and verifies the image that the bytes spell, writes its numbers to `shape` and its instructions to the first
   `shape->code` records of `code`, which has room for `room` of them.

   VSI_DONE       loaded.
   VSI_NO_ROOM    the image is valid, but has more instructions than `room`: the numbers are written, `code` is as it was.
                  So a call with a room of 1 tells how much room is wanted.
   VSI_NO_IMAGE, VSI_INVALID, VSI_NO_MEMORY, VSI_NULL    nothing is written. */
static inline enum vsi_status vsi_load(const uint8_t *bytes, size_t length, struct vsi_cell *code, size_t room,
                                       struct vsi_shape *shape) {
    if (!bytes || !code || !shape) return VSI_NULL;
    return (enum vsi_status)vsi_c_load(bytes, length, code, room, shape);
}

/* Runs the image from the words of `globals` for at most `budget` instructions, of which HALT is one. `shape` and `code`
   are as `vsi_load` wrote them, `slots` has `shape->slots` words and `globals` has `shape->globals`. `slots` is the run's
   own: it begins with the globals' words and zeros, whatever it had before, and means nothing when the call returns. Each
   run begins at the image's first instruction.

   VSI_DONE             the run halted: `globals` has its last words.
   VSI_OUT_OF_BUDGET    it didn't: `globals` is as it was.
   VSI_MISFIT, VSI_BROKEN, VSI_NULL    `globals` is as it was. Neither of the first two is answered where `code` and
                        `shape` are as `vsi_load` wrote them. */
static inline enum vsi_status vsi_run(const struct vsi_shape *shape, const struct vsi_cell *code, int64_t *slots,
                                      int64_t *globals, uint64_t budget) {
    if (!shape || !code || !slots || !globals) return VSI_NULL;
    return (enum vsi_status)vsi_c_run(code, shape->code, slots, shape->slots, globals, shape->globals, budget);
}

/* Writes a word into the global of a number, from 0 in the order of the text's declarations. VSI_MISFIT where there is
   no such global: nothing is written then. */
static inline enum vsi_status vsi_set(const struct vsi_shape *shape, int64_t *globals, size_t number, int64_t word) {
    if (!shape || !globals) return VSI_NULL;
    return (enum vsi_status)vsi_c_set(globals, shape->globals, number, word);
}

/* Reads the word of the global of a number into `word`. VSI_MISFIT where there is no such global: nothing is written
   then. */
static inline enum vsi_status vsi_get(const struct vsi_shape *shape, const int64_t *globals, size_t number,
                                      int64_t *word) {
    if (!shape || !globals || !word) return VSI_NULL;
    return (enum vsi_status)vsi_c_get(globals, shape->globals, number, word);
}

#ifdef __cplusplus
}
#endif

#endif
