/* The tests of the calls on a struct qrp_proof; tests/library/test-library compiles and runs them.
   usage: handed LIST    each case of the list whose texts are read, handed over piece by piece: the verdict is that of the texts. Then the
                         same with each allocation refused in turn, and the call made again

   A line of the list is as library.c says. The formula is taken from its canonical text. Cases in which the sets of the trace do not agree
   with the prefix are left out, since no sets are handed over. The calls malloc, realloc and free go through the functions below. */
#include "qrp_check.h"
#include <malloc.h>
#include <stddef.h>
#include <stdio.h>
#include <stdlib.h>
#include <string.h>

_Static_assert(sizeof(struct qrp_proof) == 16 && offsetof(struct qrp_proof, present) == 8, "the struct of the crate");

static unsigned long passed, failed, refused, cases;

static void settle(bool is, const char *what, const char *of) {
    if (is) { passed++; return; }
    failed++;
    printf("FAILED: %s: %s\n", what, of);
}

/* Memory: how many blocks are in use, and which request is refused, counted from 1. */
static long blocks, requests, refuse_at;
static bool was_refused, core_is_right = true, texts_are_right = true;
/* Whether the clauses of a formula are added in one call. */
static bool at_once;

void *__real_malloc(size_t size);
void *__real_realloc(void *old, size_t size);
void __real_free(void *old);

void *__wrap_malloc(size_t size) {
    if (++requests == refuse_at) { was_refused = true; return NULL; }
    void *at = __real_malloc(size);
    blocks += at != NULL;
    return at;
}
void *__wrap_realloc(void *old, size_t size) {
    if (++requests == refuse_at) { was_refused = true; return NULL; }
    void *at = __real_realloc(old, size);
    blocks += !old && at;
    return at;
}
void __wrap_free(void *old) {
    blocks -= old != NULL;
    __real_free(old);
}

/* The words of a text without its comments. Each word that begins with c begins one, so the header of a formula is left out. */
struct words { char *at; };

static char *next(struct words *words) {
    char *at = words->at;
    for (;;) {
        at += strspn(at, " \t\r\n");
        if (*at != 'c' && *at != '#') break;
        at += strcspn(at, "\n");
    }
    char *end = at + strcspn(at, " \t\r\n");
    words->at = *end ? end + 1 : end;
    *end = 0;
    return at;
}

/* Numbers up to a 0. */
static struct { int32_t literals[1 << 20]; uint64_t antecedents[4]; size_t literal_count, antecedent_count; } piece;

static void read_literals(struct words *words) {
    long literal;
    for (piece.literal_count = 0; (literal = strtol(next(words), NULL, 10)) != 0;) piece.literals[piece.literal_count++] = (int32_t)literal;
}

static void read_antecedents(struct words *words) {
    uint64_t number;
    for (piece.antecedent_count = 0; (number = strtoull(next(words), NULL, 10)) != 0;) piece.antecedents[piece.antecedent_count++] = number;
}

/* Makes a call until it is not refused memory: it is made again at most once, since one request is refused. */
#define ADD(call) \
    do { \
        int32_t status = (call); \
        if (was_refused && status == QRP_NO_MEMORY) was_refused = false, status = (call); \
        if (status != QRP_ADDED) return status; \
    } while (0)

/* Adds clauses in one call, and if memory is refused those that it did not add in another. */
static int32_t add_clauses(struct qrp_proof *proof, const int32_t *literals, size_t count) {
    for (;;) {
        size_t added = SIZE_MAX;
        int32_t status = qrp_proof_clauses(proof, literals, count, &added);
        if (status != QRP_NO_MEMORY || !was_refused) return status;
        was_refused = false;
        for (; added > 0; added--)
            while (count--, *literals++) {}
    }
}

static int32_t add_formula(struct qrp_proof *proof, char *text) {
    static int32_t all[1 << 22];
    size_t all_count = 0;
    struct words words = {text + strcspn(text, "\n")};
    for (char *word = next(&words); *word; word = next(&words)) {
        if (*word == 'a' || *word == 'e') {
            read_literals(&words);
            for (size_t i = 0; i < piece.literal_count; i++) ADD(qrp_proof_variable(proof, *word == 'a', (uint32_t)piece.literals[i]));
            continue;
        }
        piece.literal_count = 0;
        for (long literal = strtol(word, NULL, 10); literal != 0; literal = strtol(next(&words), NULL, 10))
            piece.literals[piece.literal_count++] = (int32_t)literal;
        if (!at_once) {
            ADD(qrp_proof_clause(proof, piece.literals, piece.literal_count));
            continue;
        }
        if (all_count + piece.literal_count >= sizeof all / sizeof *all) abort();
        memcpy(all + all_count, piece.literals, piece.literal_count * sizeof *all);
        all_count += piece.literal_count;
        all[all_count++] = 0;
    }
    return add_clauses(proof, all, all_count);
}

static int32_t add_trace(struct qrp_proof *proof, char *text, bool *sat) {
    struct words words = {text};
    for (int i = 0; i < 4; i++) next(&words);
    for (;;) {
        char *word = next(&words);
        if (*word == 'a' || *word == 'e') { read_literals(&words); continue; }
        if (*word == 'r') break;
        uint64_t number = strtoull(word, NULL, 10);
        read_literals(&words);
        read_antecedents(&words);
        ADD(qrp_proof_step(proof, number, piece.literals, piece.literal_count, piece.antecedents, piece.antecedent_count));
    }
    *sat = (*next(&words) | 32) == 's';
    return QRP_ADDED;
}

/* Whether the core of a proof, which was verified or not, is that of its texts; for each room, if it is small. */
static bool has_core(struct qrp_proof *proof, const char *formula, const char *trace, bool sat, bool any_pivot) {
    static uint64_t wanted[1 << 16], steps[1 << 16];
    const size_t most = sizeof steps / sizeof *steps;
    struct qrp_verdict of_texts, of_proof;
    size_t count = qrp_core(formula, strlen(formula), trace, strlen(trace), any_pivot, wanted, most, &of_texts);
    bool is = count <= most;
    for (size_t room = count < 20 ? 0 : count - 1; room <= count + 1 && is; room++) {
        memset(steps, 0xa5, sizeof steps);
        is = qrp_proof_core(proof, sat, any_pivot, steps, room, &of_proof) == count && !memcmp(&of_proof, &of_texts, sizeof of_texts);
        for (size_t i = 0; i < count + 2; i++) is &= steps[i] == (room >= count && i < count ? wanted[i] : 0xa5a5a5a5a5a5a5a5);
    }
    return is;
}

/* A text that a call writes, which is first asked for its length. */
#define TEXT_OF(text, out, call, ...) \
    do { \
        size_t length = call(__VA_ARGS__, NULL, 0, out); \
        char *at = text = __real_malloc(length + 2); \
        memset(at, 'x', length + 2); \
        texts_are_right &= call(__VA_ARGS__, at, length, out) == length && (length == 0 || at[0] == 'x'); \
        texts_are_right &= call(__VA_ARGS__, at, length + 1, out) == length && at[length] == 0 && at[length + 1] == 'x'; \
    } while (0)

/* Whether the texts that are written of a proof are the formula, but for its header, and a trace with the proof's verdict and trimmed
   trace. */
static bool has_texts(struct qrp_proof *proof, const char *formula, bool sat, bool any_pivot, const struct qrp_verdict *verdict) {
    struct qrp_verdict of_formula, of_trace, of_trimmed, of_texts, zeros;
    char *own, *trace, *trimmed;
    memset(&zeros, 0, sizeof zeros);
    TEXT_OF(own, &of_formula, qrp_proof_write_formula, proof);
    TEXT_OF(trace, &of_trace, qrp_proof_write_trace, proof, sat);
    TEXT_OF(trimmed, &of_trimmed, qrp_proof_write_trimmed, proof, sat, any_pivot);
    bool is = texts_are_right && !memcmp(&of_formula, &zeros, sizeof zeros) && !memcmp(&of_trace, &zeros, sizeof zeros);
    is &= !memcmp(&of_trimmed, verdict, sizeof zeros) && !strcmp(strchr(own, '\n'), strchr(formula, '\n'));
    qrp_verify(own, strlen(own), trace, strlen(trace), any_pivot, &of_texts);
    is &= !memcmp(&of_texts, verdict, sizeof zeros);
    char *wanted = __real_malloc(strlen(trace) + 33);
    is &= qrp_trim(own, strlen(own), trace, strlen(trace), any_pivot, wanted, strlen(trace) + 33, &of_texts) == strlen(trimmed);
    is &= !strcmp(wanted, trimmed) && (*trimmed != 0) == (verdict->letter == 'V');
    __real_free(own);
    __real_free(trace);
    __real_free(trimmed);
    __real_free(wanted);
    return is;
}

/* Writes texts while a request may be refused: each is whole, or memory was refused, and it is empty. */
static void texts_if_memory(struct qrp_proof *proof, bool sat, bool any_pivot, const struct qrp_verdict *verdict) {
    static char text[1 << 13];
    for (int i = 0; i < 3; i++) {
        struct qrp_verdict out;
        bool before = was_refused;
        size_t length = i == 0   ? qrp_proof_write_formula(proof, text, sizeof text, &out)
                        : i == 1 ? qrp_proof_write_trace(proof, sat, text, sizeof text, &out)
                                 : qrp_proof_write_trimmed(proof, sat, any_pivot, text, sizeof text, &out);
        bool refused_here = was_refused && !before, none = length == 0 && text[0] == 0;
        if (refused_here) texts_are_right &= out.status == QRP_NO_MEMORY && none;
        else if (i < 2) texts_are_right &= out.status == 0 && out.letter == 0 && !none;
        else texts_are_right &= !memcmp(&out, verdict, sizeof out) && none == (verdict->letter != 'V');
    }
}

/* Asks for a core while a request may be refused: it is that of the verdict, or there is none for want of memory, and nothing is written. */
static void core_if_memory(struct qrp_proof *proof, bool sat, bool any_pivot, const struct qrp_verdict *verdict) {
    uint64_t steps[64];
    struct qrp_verdict of_core;
    bool before = was_refused;
    memset(steps, 0xa5, sizeof steps);
    size_t count = qrp_proof_core(proof, sat, any_pivot, steps, 64, &of_core);
    bool refused_here = was_refused && !before, same = !memcmp(&of_core, verdict, sizeof of_core);
    core_is_right &= refused_here ? of_core.status == QRP_NO_MEMORY && count == 0 && steps[0] == 0xa5a5a5a5a5a5a5a5 : same;
}

/* Hands a case over, and has it checked: the status, or one of enum qrp_added where a piece was not added. */
static int32_t handed_over(const char *formula, const char *trace, bool any_pivot, struct qrp_verdict *verdict, bool *core) {
    struct qrp_proof proof = {0};
    char *texts[2] = {__real_malloc(strlen(formula) + 1), __real_malloc(strlen(trace) + 1)};
    bool sat = false;
    int32_t status = qrp_proof_new(&proof);
    strcpy(texts[0], formula);
    strcpy(texts[1], trace);
    if (status == QRP_NO_MEMORY && was_refused) was_refused = false, status = qrp_proof_new(&proof);
    if (status == QRP_ADDED) status = add_formula(&proof, texts[0]);
    if (status == QRP_ADDED) status = add_trace(&proof, texts[1], &sat);
    if (status == QRP_ADDED) {
        status = qrp_proof_check(&proof, sat, any_pivot, verdict);
        if (status == QRP_NO_MEMORY && was_refused) was_refused = false, status = qrp_proof_check(&proof, sat, any_pivot, verdict);
        if (core) *core = has_core(&proof, formula, trace, sat, any_pivot) && has_texts(&proof, formula, sat, any_pivot, verdict);
        else core_if_memory(&proof, sat, any_pivot, verdict), texts_if_memory(&proof, sat, any_pivot, verdict);
    }
    qrp_proof_free(&proof);
    __real_free(texts[0]);
    __real_free(texts[1]);
    return status;
}

static bool is_answer(int32_t status, const struct qrp_verdict *verdict, int wanted, const char *line) {
    char own[QRP_LINE_ROOM];
    qrp_verdict_line(verdict, own, sizeof own);
    return status == wanted && verdict->status == wanted && !strcmp(own, line);
}

static char *text_of(const char *name) {
    FILE *file = fopen(name, "rb");
    if (!file || fseek(file, 0, SEEK_END)) { perror(name); exit(3); }
    size_t length = (size_t)ftell(file);
    rewind(file);
    char *text = __real_malloc(length + 1);
    if (fread(text, 1, length, file) != length) { perror(name); exit(3); }
    text[length] = 0;
    fclose(file);
    return text;
}

static void try_case(char *row) {
    bool any_pivot = *strtok(row, "\t") == '1';
    int status = atoi(strtok(NULL, "\t"));
    strtok(NULL, "\t");
    char *trace_name = strtok(NULL, "\t"), *formula_name;
    strtok(NULL, "\t");
    formula_name = strtok(NULL, "\t");
    strtok(NULL, "\t");
    strtok(NULL, "\t");
    char *line = strtok(NULL, "");
    if (status > 1 || !strncmp(line, "REFUSED set", 11)) return;
    char *formula = text_of(formula_name), *trace = text_of(trace_name);
    struct qrp_verdict verdict;
    requests = refuse_at = 0, at_once = cases % 2;
    bool core = false;
    int32_t got = handed_over(formula, trace, any_pivot, &verdict, &core);
    settle(is_answer(got, &verdict, status, line) && blocks == 0, "handed over", line);
    settle(core, "the core and the texts of what is handed over", line);
    requests = 0;
    handed_over(formula, trace, any_pivot, &verdict, NULL);
    long all = strlen(trace) < 4000 ? requests : 0;
    bool is = true;
    for (long at = 1; at <= all; at++) {
        requests = 0, refuse_at = at, was_refused = false;
        got = handed_over(formula, trace, any_pivot, &verdict, NULL);
        refuse_at = 0;
        is &= is_answer(got, &verdict, status, line) && blocks == 0;
        refused++;
    }
    settle(is && core_is_right && texts_are_right, "each allocation refused, and the call made again", line);
    cases++;
    __real_free(formula);
    __real_free(trace);
}

/* What each call refuses, and that nothing is changed then. */
static void try_refusals(void) {
    struct qrp_proof proof = {0};
    struct qrp_verdict verdict, zeros;
    const int32_t clause[] = {1, -2}, unbound[] = {1, 4}, zero[] = {1, 0}, both_faults[] = {4, 0}, least[] = {INT32_MIN};
    const uint64_t three[] = {1, 2, 3}, none[] = {0};
    memset(&zeros, 0, sizeof zeros);
    settle(qrp_proof_variable(&proof, true, 1) == QRP_NO_PROOF && qrp_proof_clause(&proof, clause, 2) == QRP_NO_PROOF
               && qrp_proof_step(&proof, 1, clause, 2, three, 0) == QRP_NO_PROOF, "a struct that holds nothing", "adding");
    settle(qrp_proof_check(&proof, false, false, &verdict) == QRP_NO_PROOF && !memcmp(&verdict, &zeros, sizeof verdict),
           "a struct that holds nothing", "check");
    uint64_t steps[4] = {7, 7, 7, 7};
    settle(qrp_proof_core(&proof, false, false, steps, 4, &verdict) == 0 && !memcmp(&verdict, &zeros, sizeof verdict) && steps[0] == 7,
           "a struct that holds nothing", "core");
    char text[] = "xx";
    settle(qrp_proof_write_formula(&proof, text, 2, &verdict) == 0 && !memcmp(&verdict, &zeros, sizeof verdict) && !memcmp(text, "\0x", 3)
               && qrp_proof_write_trace(&proof, true, text, 2, &verdict) == 0 && !memcmp(&verdict, &zeros, sizeof verdict)
               && qrp_proof_write_trimmed(&proof, true, true, text, 2, &verdict) == 0 && !memcmp(&verdict, &zeros, sizeof verdict),
           "a struct that holds nothing", "texts");
    size_t added = 7;
    settle(qrp_proof_clauses(&proof, clause, 2, &added) == QRP_NO_PROOF && added == 0, "a struct that holds nothing", "clauses");
    qrp_proof_free(&proof);
    settle(qrp_proof_new(&proof) == QRP_ADDED && qrp_proof_new(&proof) == QRP_ADDED, "new, twice", "");
    settle(qrp_proof_variable(&proof, false, 1) == QRP_ADDED && qrp_proof_variable(&proof, true, 2) == QRP_ADDED, "variables", "");
    settle(qrp_proof_variable(&proof, true, 1) == QRP_BOUND_TWICE, "bound twice", "");
    settle(qrp_proof_variable(&proof, true, 0) == QRP_OUT_OF_RANGE && qrp_proof_variable(&proof, true, 1u << 31) == QRP_OUT_OF_RANGE,
           "a variable", "");
    settle(qrp_proof_clause(&proof, unbound, 2) == QRP_NOT_BOUND, "a variable that is not bound", "");
    settle(qrp_proof_clause(&proof, zero, 2) == QRP_OUT_OF_RANGE && qrp_proof_clause(&proof, least, 1) == QRP_OUT_OF_RANGE, "a literal", "");
    settle(qrp_proof_step(&proof, 0, clause, 2, three, 0) == QRP_OUT_OF_RANGE
               && qrp_proof_step(&proof, 1, zero, 2, three, 0) == QRP_OUT_OF_RANGE
               && qrp_proof_step(&proof, 1, clause, 2, none, 1) == QRP_OUT_OF_RANGE, "numbers of a step", "");
    settle(qrp_proof_step(&proof, 1, clause, 2, three, 3) == QRP_TOO_MANY_ANTECEDENTS, "three antecedents", "");
    /* For some 1, for all 2: 1, and -1 or -2. It is false: 2. */
    const int32_t one[] = {1}, other[] = {-1, -2}, reduced[] = {-1};
    const uint64_t of_other[] = {2}, both[] = {1, 3};
    settle(qrp_proof_clause(&proof, one, 1) == QRP_ADDED && qrp_proof_clause(&proof, other, 2) == QRP_ADDED, "clauses", "");
    settle(qrp_proof_check(&proof, false, false, &verdict) == QRP_PROOF_REFUSED && verdict.letter == 'C' && verdict.number == 4,
           "no step yet", "");
    settle(qrp_proof_step(&proof, 1, one, 1, three, 0) == QRP_ADDED && qrp_proof_step(&proof, 1, one, 1, three, 0) == QRP_NUMBER_USED,
           "a number, twice", "");
    settle(qrp_proof_step(&proof, 0, zero, 2, three, 3) == QRP_TOO_MANY_ANTECEDENTS
               && qrp_proof_step(&proof, 1, zero, 2, three, 3) == QRP_TOO_MANY_ANTECEDENTS
               && qrp_proof_step(&proof, 1, zero, 2, three, 0) == QRP_OUT_OF_RANGE
               && qrp_proof_step(&proof, 1, one, 1, none, 1) == QRP_OUT_OF_RANGE && qrp_proof_clause(&proof, both_faults, 2) == QRP_OUT_OF_RANGE,
           "several faults at once", "");
    settle(qrp_proof_step(&proof, 2, other, 2, three, 0) == QRP_ADDED && qrp_proof_step(&proof, 3, reduced, 1, of_other, 1) == QRP_ADDED
               && qrp_proof_step(&proof, 9, one, 0, both, 2) == QRP_ADDED, "steps", "");
    settle(qrp_proof_check(&proof, false, false, &verdict) == QRP_VERIFIED && verdict.letter == 'V' && !verdict.truth, "the proof", "");
    settle(qrp_proof_core(&proof, false, false, steps, 4, &verdict) == 4 && verdict.letter == 'V' && steps[0] == 1 && steps[3] == 9, "the core", "");
    settle(qrp_proof_check(&proof, true, false, &verdict) == QRP_PROOF_REFUSED && verdict.letter == 'C' && verdict.number == 6,
           "as one of a true formula", "");
    qrp_proof_free(&proof);
    qrp_proof_free(&proof);
    settle(blocks == 0 && qrp_proof_clause(&proof, clause, 2) == QRP_NO_PROOF, "freed, twice", "");
}

int main(int arguments, char **words) {
    static char row[1 << 14];
    FILE *list = arguments == 2 ? fopen(words[1], "r") : NULL;
    if (!list) { perror("the list"); return 5; }
    blocks = 0;
    try_refusals();
    while (fgets(row, sizeof row, list)) try_case(row);
    fclose(list);
    printf("handed over in C: %lu cases, %lu allocations refused\n", cases, refused);
    printf("%lu %lu %lu\n", passed, failed, refused);
    return failed != 0;
}
