/* Loaded before the C library: each read gives one byte at most, and each write takes one byte at most, or as many as PIECE says. The
   read with the number in FAIL_READ, counted from 1, fails, and so does the write with the number in FAIL_WRITE. At the end of the run
   the file that COUNTS names gets two numbers: how often a file was opened, and how often one was read.
   It includes no header, so that the toolchain's own compiler is enough to build it. */
typedef unsigned long size_type;
typedef long count_type;

extern void *dlsym(void *handle, const char *name);
extern char *getenv(const char *name);
extern int creat(const char *path, unsigned mode);
extern int dprintf(int file, const char *format, ...);
extern long atol(const char *text);
extern int *__errno_location(void);

#define NEXT_LIBRARY ((void *)-1L)
#define INPUT_OUTPUT_ERROR 5

static long opens, reads, writes;

static int is_failing(const char *name, long number) {
    const char *at = getenv(name);
    if (!at || number != atol(at)) return 0;
    *__errno_location() = INPUT_OUTPUT_ERROR;
    return 1;
}

static size_type piece_of(size_type count) {
    const char *given = getenv("PIECE");
    size_type piece = given ? (size_type)atol(given) : 1;
    return count > piece ? piece : count;
}

int open(const char *path, int flags, ...) {
    static int (*next)(const char *, int, ...);
    if (!next) next = (int (*)(const char *, int, ...))dlsym(NEXT_LIBRARY, "open");
    opens++;
    /* Nothing is created, so that there is no mode. */
    return next(path, flags);
}

count_type read(int file, void *to, size_type count) {
    static count_type (*next)(int, void *, size_type);
    if (!next) next = (count_type (*)(int, void *, size_type))dlsym(NEXT_LIBRARY, "read");
    return is_failing("FAIL_READ", ++reads) ? -1 : next(file, to, piece_of(count));
}

count_type write(int file, const void *from, size_type count) {
    static count_type (*next)(int, const void *, size_type);
    if (!next) next = (count_type (*)(int, const void *, size_type))dlsym(NEXT_LIBRARY, "write");
    return is_failing("FAIL_WRITE", ++writes) ? -1 : next(file, from, piece_of(count));
}

count_type __write(int file, const void *from, size_type count) {
    return write(file, from, count);
}

__attribute__((destructor)) static void tell(void) {
    const char *path = getenv("COUNTS");
    if (path) dprintf(creat(path, 0600), "%ld %ld\n", opens, reads);
}
