/* Loaded before the C library: counts how often memory is asked for, and refuses the growth with the number in
   FAIL_GROWTH, counted from 1. A growth is malloc, calloc, and realloc to as much as was asked for before or more: a list
   of values without a size grows, too. A realloc to less, as where spare room is given back, is counted for itself, and
   refused by its number in FAIL_WITHIN.
   At the end of the run the file that COUNTS names gets three numbers: growths, reallocs within, and how many of either
   were refused.
   It includes no header, so that the toolchain's own compiler is enough to build it. */
typedef unsigned long size_type;

extern void *dlsym(void *handle, const char *name);
extern char *getenv(const char *name);
extern long atol(const char *text);
extern size_type malloc_usable_size(void *block);
extern int creat(const char *path, unsigned mode);
extern int dprintf(int file, const char *format, ...);

#define NEXT_LIBRARY ((void *)-1L)

static long growths, within, refused;

/* How much was asked for a block, by its address; of two blocks with one place the later one is known. */
static struct {
    void *block;
    size_type size;
} asked[1 << 16];

static void *noted(void *block, size_type size) {
    size_type place = ((size_type)block >> 4) & 0xFFFF;
    if (block) {
        asked[place].block = block;
        asked[place].size = size;
    }
    return block;
}

static size_type size_of(void *block) {
    size_type place = ((size_type)block >> 4) & 0xFFFF;
    return asked[place].block == block ? asked[place].size : malloc_usable_size(block);
}

static int is_refused(const char *name, long number) {
    const char *at = getenv(name);
    if (!at || number != atol(at)) return 0;
    refused++;
    return 1;
}

void *malloc(size_type size) {
    static void *(*next)(size_type);
    if (!next) next = (void *(*)(size_type))dlsym(NEXT_LIBRARY, "malloc");
    return is_refused("FAIL_GROWTH", ++growths) ? 0 : noted(next(size), size);
}

void *calloc(size_type count, size_type size) {
    static void *(*next)(size_type, size_type);
    if (!next) next = (void *(*)(size_type, size_type))dlsym(NEXT_LIBRARY, "calloc");
    return is_refused("FAIL_GROWTH", ++growths) ? 0 : noted(next(count, size), count * size);
}

void *realloc(void *old, size_type size) {
    static void *(*next)(void *, size_type);
    if (!next) next = (void *(*)(void *, size_type))dlsym(NEXT_LIBRARY, "realloc");
    if (old && size < size_of(old))
        return is_refused("FAIL_WITHIN", ++within) ? 0 : noted(next(old, size), size);
    return is_refused("FAIL_GROWTH", ++growths) ? 0 : noted(next(old, size), size);
}

__attribute__((destructor)) static void tell(void) {
    const char *path = getenv("COUNTS");
    if (path) dprintf(creat(path, 0600), "%ld %ld %ld\n", growths, within, refused);
}
