/* The tests of the library in C; tests/library/test-library compiles and runs them.
   usage: library LIST            each case of the list by each call, at every alignment, in every room, with each allocation refused,
                                  and by eight threads
          library gates LIST      the same of formulas of gates, by their calls: what `format` prints is then what `qrp_gates clauses` does,
                                  no trace is trimmed, and the circuits are those of `qrp_gates strategy`
          library times LIST      how long the cases of the list take, one after the other

   A line of the list is the flag (0 or 1), the status, the files of the formula, of the trace, of what `trim` and `format` print for them,
   of what `qrp_strategy` prints in both formats (each a `-`, if that program is not there: then its call is left out), and the line without
   its end, with tabs between them. The calls malloc, realloc and free go through the functions below (the linker's --wrap). */
#include "qrp_check.h"
#include <malloc.h>
#include <pthread.h>
#include <stdarg.h>
#include <stdio.h>
#include <stdlib.h>
#include <string.h>
#include <sys/mman.h>
#include <time.h>
#include <unistd.h>

struct text { uint8_t *bytes; size_t length; };
struct example {
    struct text formula, trace, trimmed, formatted, circuit, binary;
    bool any_pivot;
    int status;
    char line[64];
    uint64_t *core;
    size_t steps;
};

/* The calls that take a text, the last of them in both formats, and where one of them writes; and those on formulas of gates. Those from
   `first` on and before `end` are tried. */
enum call { VERIFY, TRIM, CORE, FORMAT, STRATEGY, BINARY, GATES_VERIFY, CLAUSES, GATES_STRATEGY, GATES_BINARY, CALLS };
static enum call first = VERIFY, end = GATES_VERIFY;
struct written { char *text; uint64_t *steps; size_t room, returned; };

static struct example examples[4096];
static size_t count;
static unsigned long passed, failed, refused;

static void settle(bool is, const char *what, const struct example *of) {
    if (is) { passed++; return; }
    failed++;
    printf("FAILED: %s: wanted %d %s", what, of->status, of->line);
}

/* Memory: how many blocks are in use, and which request is refused, counted from 1. In the threads nothing is refused. */
static __thread long blocks, requests, refuse_at;
static __thread bool was_refused, was_growth;

void *__real_malloc(size_t size);
void *__real_realloc(void *old, size_t size);
void __real_free(void *old);

/* How much was asked for a block, by its address; of two blocks with one place the later one is known. */
static __thread struct { void *block; size_t size; } asked[1 << 12];

static void *noted(void *block, size_t size) {
    size_t place = ((uintptr_t)block >> 4) % (1 << 12);
    asked[place].block = block;
    asked[place].size = size;
    return block;
}
static size_t size_of(void *block) {
    size_t place = ((uintptr_t)block >> 4) % (1 << 12);
    return asked[place].block == block ? asked[place].size : malloc_usable_size(block);
}

void *__wrap_malloc(size_t size) {
    if (++requests == refuse_at) { was_refused = was_growth = true; return NULL; }
    void *at = noted(__real_malloc(size), size);
    blocks += at != NULL;
    return at;
}
void *__wrap_realloc(void *old, size_t size) {
    if (++requests == refuse_at) {
        was_refused = true;
        /* To as much as before, as a list of values without a size grows, is a growth too. */
        was_growth = !old || size >= size_of(old);
        return NULL;
    }
    void *at = noted(__real_realloc(old, size), size);
    blocks += !old && at;
    return at;
}
void __wrap_free(void *old) {
    blocks -= old != NULL;
    __real_free(old);
}

/* The line that the fields say, by the table of the manual page. */
static void line_of(const struct qrp_verdict *v, char *line) {
    unsigned long long position = v->position;
    if (v->status == QRP_VERIFIED) sprintf(line, "VERIFIED %s\n", v->truth ? "true" : "false");
    else if (v->status == QRP_NO_MEMORY) sprintf(line, "NO MEMORY\n");
    else if (v->letter == 'C' && v->number == 6) sprintf(line, "REFUSED step %llu S%d\n", position, v->rule);
    else if (v->letter == 'C' && v->number == 4) sprintf(line, "REFUSED trace C4\n");
    else if (v->letter == 'C') sprintf(line, "REFUSED set C%d variable %llu\n", v->number, position);
    else sprintf(line, "REFUSED %s %c%d line %llu\n", v->letter == 'P' ? "trace" : "formula", v->letter, v->number, position);
}

/* Makes a call with these texts, and returns the status in the struct. */
static int made(enum call call, const struct example *of, const uint8_t *formula, const uint8_t *trace, struct qrp_verdict *v,
                struct written *w) {
    size_t f = of->formula.length, t = of->trace.length;
    memset(v, 0xff, sizeof *v);
    switch (call) {
    case TRIM: w->returned = qrp_trim(formula, f, trace, t, of->any_pivot, w->text, w->room, v); return v->status;
    case CORE: w->returned = qrp_core(formula, f, trace, t, of->any_pivot, w->steps, w->room, v); return v->status;
    case FORMAT: w->returned = qrp_format(formula, f, w->text, w->room, v); return v->status;
    case STRATEGY:
    case BINARY: w->returned = qrp_strategy(formula, f, trace, t, of->any_pivot, call == BINARY, w->text, w->room, v); return v->status;
    case GATES_VERIFY: return qrp_gates_verify(formula, f, trace, t, of->any_pivot, v);
    case CLAUSES: w->returned = qrp_gates_clauses(formula, f, w->text, w->room, v); return v->status;
    case GATES_STRATEGY:
    case GATES_BINARY:
        w->returned = qrp_gates_strategy(formula, f, trace, t, of->any_pivot, call == GATES_BINARY, w->text, w->room, v);
        return v->status;
    default: return qrp_verify(formula, f, trace, t, of->any_pivot, v);
    }
}

/* Whether a call writes a verdict alone, or the text of a formula, of which no trace is checked. */
static bool is_verdict(enum call call) { return call == VERIFY || call == GATES_VERIFY; }
static bool is_of_formula(enum call call) { return call == FORMAT || call == CLAUSES; }

static int verify(const struct example *of, const uint8_t *formula, const uint8_t *trace, struct qrp_verdict *v) {
    return made(first, of, formula, trace, v, NULL);
}

/* Whether the answer is the status and the line of the case, by the fields and by the library's own line. */
static bool is_answer(int status, const struct qrp_verdict *v, int wanted, const char *line) {
    char own[64], fields[64], meaning[QRP_FAULT_ROOM];
    size_t length = qrp_verdict_line(v, own, sizeof own), long_meaning = qrp_fault_text(v, meaning, sizeof meaning);
    line_of(v, fields);
    return status == wanted && v->status == wanted && length == strlen(line) && !strcmp(own, line) && !strcmp(fields, line)
        && long_meaning == strlen(meaning) && (status == 0 ? long_meaning == 0 : meaning[long_meaning - 1] == '.')
        && (v->status == 0 ? v->truth <= 1 && !v->position && v->letter == 'V' && !v->number && !v->rule : v->truth == 0)
        && !v->reserved[0] && !v->reserved[1] && !v->reserved[2];
}

/* The text that a call writes for a case. */
static const struct text *text_of(enum call call, const struct example *of) {
    switch (call) {
    case TRIM: return &of->trimmed;
    case FORMAT:
    case CLAUSES: return &of->formatted;
    case STRATEGY:
    case GATES_STRATEGY: return &of->circuit;
    default: return &of->binary;
    }
}

/* Whether a text that a call wrote is this one, with a zero after it. */
static bool is_text(const struct written *w, const struct text *wanted) {
    return w->returned == wanted->length && !memcmp(w->text, wanted->bytes, wanted->length) && !w->text[wanted->length];
}

/* Whether a call did what the case says. Where a formula was formatted, all is zero, which is not a verdict. */
static bool is_done(enum call call, int status, const struct example *of, const struct qrp_verdict *v, const struct written *w) {
    char line[QRP_LINE_ROOM];
    if (is_of_formula(call) && of->formatted.length)
        return !status && !v->reserved[0] && !v->reserved[1] && !v->reserved[2] && !v->position && !v->truth && !v->letter && !v->number && !v->rule && is_text(w, &of->formatted)
            && qrp_verdict_line(v, line, sizeof line) == 0 && !*line;
    if (is_of_formula(call) && of->status != QRP_TEXT_REFUSED) return false;
    if (!is_answer(status, v, of->status, of->line)) return false;
    if (call == CORE) return w->returned == of->steps && !memcmp(w->steps, of->core, of->steps * sizeof *of->core);
    return is_verdict(call) || is_text(w, text_of(call, of));
}

/* Whether a call that got no memory says so and writes nothing. */
static bool is_refused(enum call call, int status, const struct qrp_verdict *v, const struct written *w) {
    return is_answer(status, v, QRP_NO_MEMORY, "NO MEMORY\n") && (is_verdict(call) || w->returned == 0)
        && (call == CORE || is_verdict(call) || !*w->text);
}

static struct written room_of(size_t room) {
    struct written w = {__real_malloc(room), __real_malloc(room * sizeof *w.steps), room, 0};
    if (!w.text || !w.steps) { perror("memory"); exit(3); }
    return w;
}

/* Pages of their own, between two that cannot even be read: with `at_end` the last byte stands before the second of these, so that a byte
   read or written after it ends the run; else the first stands `skip` bytes after the first of them. */
static struct text fenced(size_t length, bool at_end, size_t skip) {
    size_t page = (size_t)sysconf(_SC_PAGESIZE), inner = (length + skip + page) / page * page;
    uint8_t *all = mmap(NULL, inner + 2 * page, PROT_NONE, MAP_PRIVATE | MAP_ANONYMOUS, -1, 0);
    if (all == MAP_FAILED || mprotect(all + page, inner, PROT_READ | PROT_WRITE)) { perror("guard pages"); exit(3); }
    struct text pages = {at_end ? all + page + inner - length : all + page + skip, length};
    return pages;
}

/* A copy of bytes there, which can only be read. */
static struct text guarded(struct text of, bool at_end, size_t skip) {
    size_t page = (size_t)sysconf(_SC_PAGESIZE), inner = (of.length + skip + page) / page * page;
    struct text copy = fenced(of.length, at_end, skip);
    memcpy(copy.bytes, of.bytes, of.length);
    if (mprotect(at_end ? copy.bytes + of.length - inner : copy.bytes - skip, inner, PROT_READ)) { perror("guard pages"); exit(3); }
    return copy;
}

static void unguard(struct text of, bool at_end, size_t skip) {
    size_t page = (size_t)sysconf(_SC_PAGESIZE), inner = (of.length + skip + page) / page * page;
    munmap((at_end ? of.bytes + of.length - inner : of.bytes - skip) - page, inner + 2 * page);
}

/* Whether `room` bytes at the end of these pages hold the text and its zero, if there is room, and else what they held; and the rest of
   the pages is as it was. */
static bool is_kept(const struct text *pages, size_t room, const void *text, size_t length) {
    const uint8_t *at = pages->bytes + pages->length - room;
    size_t put = room > length ? length + 1 : 0;
    bool is = put == 0 || (!memcmp(at, text, length) && !at[length]);
    for (const uint8_t *b = pages->bytes; b < at; b++) is &= *b == 'x';
    for (size_t i = put; i < room; i++) is &= at[i] == 'x';
    return is;
}

/* The line and the meaning in each room up to theirs and one more, before a page that nobody can write. */
static void each_room(const struct example *of, const struct qrp_verdict *v) {
    char meaning[QRP_FAULT_ROOM];
    size_t lengths[2] = {strlen(of->line), qrp_fault_text(v, meaning, sizeof meaning)};
    const char *texts[2] = {of->line, meaning};
    struct text pages = fenced(QRP_FAULT_ROOM + 1, true, 0);
    long before = requests;
    bool is = true;
    for (int k = 0; k < 2; k++)
        for (size_t room = 0; room <= lengths[k] + 2; room++) {
            memset(pages.bytes, 'x', pages.length);
            char *at = (char *)pages.bytes + pages.length - room;
            size_t length = k ? qrp_fault_text(v, at, room) : qrp_verdict_line(v, at, room);
            is &= length == lengths[k] && is_kept(&pages, room, texts[k], length);
        }
    unguard(pages, true, 0);
    settle(is && *lengths < QRP_LINE_ROOM && requests == before, "the line and the meaning in each room, without memory", of);
}

/* The texts of the other calls in rooms around theirs, before a page that nobody can write. */
static void rooms_around(enum call call, const struct example *of) {
    const struct text *text = text_of(call, of);
    struct text pages = fenced(text->length + 8, true, 0);
    struct qrp_verdict v;
    bool is = true;
    size_t rooms[5] = {0, 1, text->length, text->length + 1, text->length + 2};
    for (int k = 0; k < 5; k++) {
        memset(pages.bytes, 'x', pages.length);
        struct written w = {(char *)pages.bytes + pages.length - rooms[k], NULL, rooms[k], 0};
        made(call, of, of->formula.bytes, of->trace.bytes, &v, &w);
        is &= w.returned == text->length && is_kept(&pages, rooms[k], text->bytes, text->length);
    }
    unguard(pages, true, 0);
    settle(is, "a text in rooms around its own", of);
}

/* The core's numbers in rooms around theirs: all or none are written, and what comes after them stays. */
static void core_rooms(const struct example *of) {
    struct qrp_verdict v;
    bool is = true;
    for (size_t room = of->steps ? of->steps - 1 : 0; room <= of->steps + 1; room++) {
        struct text pages = fenced(room * sizeof *of->core, true, 0);
        struct written w = {NULL, (uint64_t *)pages.bytes, room, 0};
        memset(pages.bytes, 'x', pages.length);
        made(CORE, of, of->formula.bytes, of->trace.bytes, &v, &w);
        size_t put = room < of->steps ? 0 : of->steps;
        is &= w.returned == of->steps && !memcmp(w.steps, of->core, put * sizeof *of->core);
        for (size_t i = put * sizeof *of->core; i < pages.length; i++) is &= pages.bytes[i] == 'x';
        unguard(pages, true, 0);
    }
    settle(is, "the core in rooms around its own", of);
}

static void each_alignment(const struct example *of, struct written *w) {
    bool is = true;
    struct qrp_verdict v;
    for (size_t at = 0; at < 16; at++) {
        size_t skip = (at + 5) % 16;
        struct text formula = guarded(of->formula, false, at), trace = guarded(of->trace, false, skip);
        for (enum call call = first; call < end; call++)
            is &= is_done(call, made(call, of, formula.bytes, trace.bytes, &v, w), of, &v, w);
        is &= !memcmp(formula.bytes, of->formula.bytes, formula.length) && !memcmp(trace.bytes, of->trace.bytes, trace.length);
        unguard(formula, false, at);
        unguard(trace, false, skip);
    }
    settle(is, "at each alignment", of);
}

static void each_refusal(enum call call, const struct example *of, struct written *w) {
    struct qrp_verdict v;
    bool is = true;
    requests = refuse_at = 0;
    made(call, of, of->formula.bytes, of->trace.bytes, &v, w);
    long all = requests;
    for (long at = 1; at <= all; at++) {
        requests = 0, refuse_at = at, was_refused = was_growth = false;
        int status = made(call, of, of->formula.bytes, of->trace.bytes, &v, w);
        refuse_at = 0;
        is &= was_refused && blocks == 0;
        is &= was_growth ? is_refused(call, status, &v, w) : is_done(call, status, of, &v, w);
        refused += was_refused;
    }
    settle(is && blocks == 0, "each allocation refused", of);
}

static size_t largest; /* of all texts */

static void *by_thread(void *wrong) {
    struct qrp_verdict v;
    struct written w = room_of(largest + 32);
    for (size_t i = 0; i < count; i++)
        for (enum call call = first; call < end; call++) {
            const struct example *of = &examples[i];
            int status = made(call, of, of->formula.bytes, of->trace.bytes, &v, &w);
            *(unsigned long *)wrong += !is_done(call, status, of, &v, &w) || blocks != 0;
        }
    __real_free(w.text);
    __real_free(w.steps);
    return NULL;
}

/* Structs that tell nothing have the empty line, and what comes after it stays: zeros, and each struct of a case with one field changed to
   what it never is beside the others. */
static void other_structs(void) {
    struct qrp_verdict v, changed;
    bool is = true;
    char line[QRP_LINE_ROOM];
    memset(&changed, 0, sizeof changed);
    for (size_t i = 0; i < count; i++)
        for (int field = 0; field < 6; field++) {
            memset(line, 'x', sizeof line);
            if (i || field) {
                verify(&examples[i], examples[i].formula.bytes, examples[i].trace.bytes, &v);
                changed = v;
                if (field == 0) changed.status ^= 1;
                if (field == 1) changed.truth ^= 2;
                if (field == 2) changed.letter ^= 64;
                if (field == 3) changed.number += 100;
                if (field == 4) changed.rule += 100;
                if (field == 5) changed.reserved[2] = 1;
            }
            is &= qrp_verdict_line(&changed, line, sizeof line) == 0 && !*line && qrp_fault_text(&changed, line, sizeof line) == 0;
            for (size_t k = 1; k < sizeof line; k++) is &= line[k] == 'x';
        }
    settle(is, "structs that tell nothing", &examples[0]);
    settle(qrp_version() == QRP_VERSION, "the version", &examples[0]);
}

static void eight_threads(void) {
    pthread_t thread[8];
    unsigned long wrong[8] = {0}, all = 0;
    for (int i = 0; i < 8; i++)
        if (pthread_create(&thread[i], NULL, by_thread, &wrong[i])) wrong[i] = 1;
    for (int i = 0; i < 8; i++) pthread_join(thread[i], NULL), all += wrong[i];
    settle(all == 0, "eight threads at once", &examples[0]);
}

/* The bytes of a file, before a page that cannot be read. */
static struct text bytes_of(const char *name) {
    struct text text = {NULL, 0}, copy;
    FILE *file = fopen(name, "rb");
    if (!file || fseek(file, 0, SEEK_END)) { perror(name); exit(3); }
    text.length = (size_t)ftell(file);
    rewind(file);
    text.bytes = __real_malloc(text.length ? text.length : 1);
    if (fread(text.bytes, 1, text.length, file) != text.length) { perror(name); exit(3); }
    fclose(file);
    copy = guarded(text, true, 0);
    __real_free(text.bytes);
    return copy;
}

/* The bytes of a file that `qrp_strategy` printed, if it is there. */
static struct text printed(const char *name) {
    if (strcmp(name, "-")) return bytes_of(name);
    if (first == VERIFY) end = STRATEGY;
    return (struct text){NULL, 0};
}

/* The numbers of the steps in the text of a trimmed trace: the first words of its lines that begin with a digit. */
static void read_core(struct example *of) {
    char *text = __real_malloc(of->trimmed.length + 1), *line, *next;
    memcpy(text, of->trimmed.bytes, of->trimmed.length);
    text[of->trimmed.length] = 0;
    of->core = __real_malloc((of->trimmed.length + 1) * sizeof *of->core);
    for (line = text; *line; line = next) {
        next = strchr(line, '\n') + 1;
        if (*line >= '0' && *line <= '9') of->core[of->steps++] = strtoull(line, NULL, 10);
    }
    __real_free(text);
}

static void read_list(const char *name) {
    static char row[1 << 14];
    FILE *list = fopen(name, "r");
    if (!list) { perror(name); exit(3); }
    while (fgets(row, sizeof row, list) && count < sizeof examples / sizeof *examples) {
        struct example *of = &examples[count++];
        of->any_pivot = *strtok(row, "\t") == '1';
        of->status = atoi(strtok(NULL, "\t"));
        of->formula = bytes_of(strtok(NULL, "\t"));
        of->trace = bytes_of(strtok(NULL, "\t"));
        of->trimmed = bytes_of(strtok(NULL, "\t"));
        of->formatted = bytes_of(strtok(NULL, "\t"));
        of->circuit = printed(strtok(NULL, "\t"));
        of->binary = printed(strtok(NULL, "\t"));
        read_core(of);
        size_t lengths[5] = {of->formula.length, of->trace.length, of->formatted.length, of->circuit.length, of->binary.length};
        for (int k = 0; k < 5; k++) if (lengths[k] > largest) largest = lengths[k];
        /* What the header says of the room. */
        if (first == VERIFY)
            settle(of->trimmed.length < of->trace.length + 32 && of->formatted.length < of->formula.length + 32, "room for a text", of);
        snprintf(of->line, sizeof of->line, "%s", strtok(NULL, ""));
    }
    if (!feof(list)) { fprintf(stderr, "%s: too many cases\n", name); exit(3); }
    fclose(list);
}

/* The best of twenty runs over all cases, in microseconds. */
static long best_time(void) {
    long best = 0;
    for (int k = 0; k < 20; k++) {
        struct timespec a, b;
        struct qrp_verdict v;
        clock_gettime(CLOCK_MONOTONIC, &a);
        for (size_t i = 0; i < count; i++) failed += verify(&examples[i], examples[i].formula.bytes, examples[i].trace.bytes, &v) != examples[i].status;
        clock_gettime(CLOCK_MONOTONIC, &b);
        long took = (b.tv_sec - a.tv_sec) * 1000000 + (b.tv_nsec - a.tv_nsec) / 1000;
        if (!best || took < best) best = took;
    }
    return best;
}

int main(int arguments, char **words) {
    if (arguments < 2) return 5;
    bool is_timed = arguments > 2 && !strcmp(words[1], "times");
    if (arguments > 2 && !is_timed) first = GATES_VERIFY, end = CALLS;
    read_list(words[arguments - 1]);
    blocks = 0;
    if (is_timed) {
        printf("%ld\n", best_time());
        return failed != 0;
    }
    struct written w = room_of(largest + 32);
    for (size_t i = 0; i < count; i++) {
        struct qrp_verdict v;
        const struct example *of = &examples[i];
        for (enum call call = first; call < end; call++) {
            int status = made(call, of, of->formula.bytes, of->trace.bytes, &v, &w);
            settle(is_done(call, status, of, &v, &w) && blocks == 0, "a call", of);
            each_refusal(call, of, &w);
        }
        verify(of, of->formula.bytes, of->trace.bytes, &v);
        each_room(of, &v);
        for (enum call call = first + 1; call < end; call++)
            if (call != CORE) rooms_around(call, of);
        if (first == VERIFY) core_rooms(of);
        each_alignment(of, &w);
    }
    __real_free(w.text);
    __real_free(w.steps);
    other_structs();
    eight_threads();
    printf("in C: %lu cases%s, %lu allocations refused\n", (unsigned long)count, first == VERIFY ? "" : " of gates", refused);
    printf("%lu %lu %lu\n", passed, failed, refused);
    return failed != 0;
}
