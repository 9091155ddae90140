/* Loaded before the C library, this refuses a program's requests for memory, in one of two ways. It needs no header and no
   library but the C library.

   With REFUSE_AT it refuses the request that has this number, from 1. At the end it writes the number of requests to the
   file descriptor 3, so a run whose number is smaller than REFUSE_AT met no refusal. With REFUSE_AT=0 and REFUSE_SEEN it
   refuses none, and writes there a line for each request that is worth refusing: its number.

   With REFUSE_INTO, a folder, it refuses one request after another within one run: at each request that is worth it, the
   process forks, the child meets the refusal and goes on to its end, and the parent waits for it and gets the memory. The
   child writes its standard output and error to files, after what the parent had written, and has its own place in each
   open file. On the descriptor 3 the parent writes a line for each child: `STATUS` if it ended with the report of lack of
   memory alone (status 5, `out of memory` on standard error and nothing on standard output), else `STATUS NUMBER`; then
   what the child wrote is left in NUMBER.output and NUMBER.error in the folder. A program that writes files isn't tried
   this way: its children would write them too.

   REFUSE_SEEN, if it is given, is a file of SEEN_SIZE bytes, all 0 at first, that all runs share. It counts how often a
   request was refused to the same chain of calls, by a sum over the return addresses on the stack. A request is worth
   refusing if its chain was refused fewer than TRIES times. Without the file each request is. A word that an earlier call
   left on the stack can make one chain look like two, but never two like one, except for a sum that two chains share. */
typedef unsigned long size;

extern void *__libc_malloc(size);
extern void *__libc_calloc(size, size);
extern void *__libc_realloc(void *, size);
extern void *__libc_memalign(size, size);
extern char *getenv(const char *);
extern long atol(const char *);
extern long write(int, const void *, size);
extern int *__errno_location(void);
extern int close(int), dup2(int, int), fcntl(int, int), fork(void), open(const char *, int, ...);
extern int openat(int, const char *, int, ...), renameat(int, const char *, int, const char *), waitpid(int, int *, int);
extern long lseek(int, long, int), read(int, void *, size);
extern void _exit(int);
extern void *mmap(void *, size, int, int, int, long);
extern size getauxval(size);
extern void *__libc_stack_end;

enum { OUT_OF_MEMORY = 12, LACKS_MEMORY = 5, REPORT = 3, FOLDER = 99, FILES = 32 };
enum { READS = 0, WRITES = 1, BOTH = 2, MADE = 0100, EMPTIED = 01000, FLAGS = 3, FROM_HERE = 1, FROM_START = 0 };
enum { HEADERS = 3, HEADERS_NUMBER = 5, CODE_PART = 1, HEADERS_PART = 6, RUNS = 1, MAPS_BOTH = 3, SHARED = 1 };
enum { TRIES = 4, CHAINS = 1 << 16, SEEN_SIZE = CHAINS * 16, PLACES = 64 };

/* A part of the program in memory, as its file describes it. */
struct part {
    unsigned kind, flags;
    size offset, address, physical, in_file, in_memory, alignment;
};

/* A chain of calls, and how often a request was refused to it. */
struct chain {
    size sum, tries;
};

static long refused, count;
static int is_child;
static struct chain *seen;
static size code_begin, code_end;

/* The number in decimal, at the end of the room of 24 bytes. */
static char *decimal(char *room, long number) {
    char *at = room + 23;
    *at = 0;
    do {
        *--at = (char)('0' + number % 10);
        number /= 10;
    } while (number);
    return at;
}

static size length_of(const char *text) {
    size length = 0;
    while (text[length]) length += 1;
    return length;
}

/* A child gives up with a status that no program of ours ends with, so that it is looked at. */
static void give_up(void) {
    _exit(99);
}

/* The path of an open file of this process. */
static const char *path_of(int file) {
    static char path[40] = "/proc/self/fd/";
    char room[24], *number = decimal(room, file);
    size at = 14;
    while ((path[at++] = *number++)) {}
    return path;
}

/* Gives the stream a file of its own in the folder, which begins with what was written so far. */
static void write_apart(int stream, const char *name) {
    char part[4096];
    long length;
    int made = openat(FOLDER, name, WRITES | MADE | EMPTIED, 0600);
    int old = lseek(stream, 0, FROM_HERE) > 0 ? open(path_of(stream), READS) : -1;
    if (made < 0) give_up();
    while (old >= 0 && (length = read(old, part, sizeof part)) > 0)
        if (write(made, part, (size)length) != length) give_up();
    if (old >= 0) close(old);
    if (dup2(made, stream) < 0) give_up();
    close(made);
}

/* Gives what is read a place of its own, so that the parent's stays where it is. */
static void read_apart(int file) {
    long place = lseek(file, 0, FROM_HERE);
    int flags = fcntl(file, 3), own;
    if (place < 0 || flags < 0 || (flags & FLAGS) != READS) return;
    own = open(path_of(file), READS);
    if (own < 0 || lseek(own, place, FROM_START) != place || dup2(own, file) < 0) give_up();
    close(own);
}

/* Makes the process a child, which shares with its parent nothing that either of them moves. */
static void part(void) {
    is_child = 1;
    write_apart(1, "output");
    write_apart(2, "error");
    read_apart(0);
    for (int file = REPORT + 1; file < FILES; file += 1) read_apart(file);
}

/* Whether the file in the folder holds this text and no more. */
static int holds(const char *name, const char *text) {
    char seen[32];
    int file = openat(FOLDER, name, READS);
    long length = file < 0 ? -1 : read(file, seen, sizeof seen);
    if (file >= 0) close(file);
    if (length != (long)length_of(text)) return 0;
    for (long at = 0; at < length; at += 1)
        if (seen[at] != text[at]) return 0;
    return 1;
}

/* Leaves what the child wrote under its number. */
static void keep(const char *name, const char *number) {
    char kept[40];
    size at = 0;
    while (*number) kept[at++] = *number++;
    kept[at++] = '.';
    for (size from = 0; (kept[at++] = name[from]); from += 1) {}
    (void)renameat(FOLDER, name, FOLDER, kept);
}

/* Reports how the child ended. */
static void judge(int ending) {
    char line[64], room[24], *number = decimal(room, count), status[24];
    int code = ending & 127 ? 128 + (ending & 127) : ending >> 8 & 255;
    size at = 0;
    for (char *from = decimal(status, code); *from; from += 1) line[at++] = *from;
    if (code != LACKS_MEMORY || !holds("error", "out of memory\n") || !holds("output", "")) {
        keep("output", number);
        keep("error", number);
        line[at++] = ' ';
        while (*number) line[at++] = *number++;
    }
    line[at++] = '\n';
    (void)!write(REPORT, line, at);
}

/* Tries the request refused in a child. It is refused if this process is the child. */
static int is_refused_apart(void) {
    int ending = 0, child;
    child = fork();
    if (child == 0) {
        part();
        return 1;
    }
    if (child < 0 || waitpid(child, &ending, 0) != child) give_up();
    judge(ending);
    return 0;
}

/* Finds where the program's code is. */
static void find_code(void) {
    struct part *parts = (struct part *)getauxval(HEADERS);
    size number = getauxval(HEADERS_NUMBER), moved = 0;
    for (size at = 0; at < number; at += 1)
        if (parts[at].kind == HEADERS_PART) moved = (size)parts - parts[at].address;
    for (size at = 0; at < number; at += 1)
        if (parts[at].kind == CODE_PART && parts[at].flags & RUNS) {
            code_begin = moved + parts[at].address;
            code_end = code_begin + parts[at].in_memory;
        }
}

/* Shares the counts of chains with the other runs. */
static void share(const char *path) {
    int file = open(path, BOTH);
    seen = file < 0 ? 0 : mmap(0, SEEN_SIZE, MAPS_BOTH, SHARED, file, 0);
    if (!seen || seen == (struct chain *)-1) give_up();
    close(file);
    find_code();
    if (code_begin == code_end) give_up();
}

/* Finds out which requests are to be refused. */
static void begin(void) {
    const char *number = getenv("REFUSE_AT"), *folder = getenv("REFUSE_INTO"), *chains = getenv("REFUSE_SEEN");
    refused = number ? atol(number) : -1;
    if (chains) share(chains);
    if (chains && refused == 0) refused = -3;
    if (!folder) return;
    int opened = open(folder, READS);
    if (opened < 0 || dup2(opened, FOLDER) < 0) give_up();
    close(opened);
    refused = -2;
}

/* The sum of the chain of calls that leads here. */
static size chain_here(void) {
    size sum = 14695981039346656037u;
    for (size *at = __builtin_frame_address(0); at < (size *)__libc_stack_end; at += 1)
        if (*at >= code_begin && *at < code_end) sum = (sum ^ (*at - code_begin)) * 1099511628211u;
    return sum ? sum : 1;
}

/* Whether the chain of calls that leads here was refused fewer than TRIES times. This time is counted too. */
static int is_worth_it(void) {
    if (!seen) return 1;
    size sum = chain_here();
    for (size at = 0; at < PLACES; at += 1) {
        struct chain *place = &seen[(sum + at) % CHAINS];
        size empty = 0;
        if (__atomic_compare_exchange_n(&place->sum, &empty, sum, 0, __ATOMIC_RELAXED, __ATOMIC_RELAXED) || empty == sum)
            return __atomic_fetch_add(&place->tries, 1, __ATOMIC_RELAXED) < TRIES;
    }
    return 1;
}

/* Writes the request's number, with a line feed. */
static void report_number(void) {
    char line[32], room[24];
    size at = 0;
    for (char *from = decimal(room, count); *from; from += 1) line[at++] = *from;
    line[at++] = '\n';
    (void)!write(REPORT, line, at);
}

/* Whether this request is refused. */
static int is_refused(void) {
    if (refused == 0) begin();
    count += 1;
    if (refused == -3 && is_worth_it()) report_number();
    if (refused == -2 ? is_child || !is_worth_it() || !is_refused_apart() : count != refused) return 0;
    *__errno_location() = OUT_OF_MEMORY;
    return 1;
}

void *malloc(size length) {
    return is_refused() ? 0 : __libc_malloc(length);
}

void *calloc(size number, size length) {
    return is_refused() ? 0 : __libc_calloc(number, length);
}

void *realloc(void *old, size length) {
    return is_refused() ? 0 : __libc_realloc(old, length);
}

void *memalign(size boundary, size length) {
    return is_refused() ? 0 : __libc_memalign(boundary, length);
}

void *aligned_alloc(size boundary, size length) {
    return memalign(boundary, length);
}

int posix_memalign(void **made, size boundary, size length) {
    void *block = memalign(boundary, length);
    if (!block) return OUT_OF_MEMORY;
    *made = block;
    return 0;
}

/* Writes the number of requests, with a line feed, where at most one was to be refused. */
__attribute__((destructor)) static void report_count(void) {
    if (refused != -2 && refused != -3) report_number();
}
