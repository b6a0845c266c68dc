/* Random orders of calls on structs qrp_proof; tests/library/test-library compiles and runs them, with the sanitizers if they are there.
   usage: orders SEQUENCES [SEED]    so many sequences of calls, by a generator that the seed starts

   A model beside each struct has what was handed over. The status of each call is that which the model predicts, and the texts that are
   written are those of the model. Verdict, core and trimmed trace are those which the calls on texts find for these texts. In each fourth
   sequence every 20th request for memory is refused: then a call may say so, and the model is as it was. */
#include "qrp_check.h"
#include <inttypes.h>
#include <stdio.h>
#include <stdlib.h>
#include <string.h>

enum { VARIABLES = 12, CLAUSES = 24, STEPS = 40, LITERALS = 12, TEXT = 1 << 15 };

struct list { int32_t at[LITERALS]; size_t count; };
struct step { uint64_t number, antecedents[2]; size_t antecedent_count; struct list literals; };
struct model {
    bool there;
    size_t variables, clauses, steps;
    uint32_t variable[VARIABLES];
    bool universal[VARIABLES];
    struct list clause[CLAUSES];
    struct step step[STEPS];
};

static unsigned long passed, failed, calls, verdicts, verified[2], of_step, refusals;

static void settle(bool is, const char *what) {
    if (!is && failed++ < 20) printf("FAILED: %s, after %lu calls\n", what, calls);
}

/* Memory: how many blocks are in use, and whether every 20th request is refused. */
static long blocks, requests;
static bool refusing, was_refused;

void *__real_malloc(size_t size);
void *__real_realloc(void *old, size_t size);
void __real_free(void *old);

static bool is_refused(void) {
    if (!refusing || ++requests % 20 != 0) return false;
    refusals++;
    return was_refused = true;
}
void *__wrap_malloc(size_t size) {
    if (is_refused()) return NULL;
    void *at = __real_malloc(size);
    blocks += at != NULL;
    return at;
}
void *__wrap_realloc(void *old, size_t size) {
    if (is_refused()) return NULL;
    void *at = __real_realloc(old, size);
    blocks += !old && at;
    return at;
}
void __wrap_free(void *old) {
    blocks -= old != NULL;
    __real_free(old);
}

/* xorshift64* */
static uint64_t state;

static uint32_t random_below(uint32_t bound) {
    state ^= state >> 12, state ^= state << 25, state ^= state >> 27;
    return (uint32_t)((state * 0x2545F4914F6CDD1D) >> 32) % bound;
}
static bool one_in(uint32_t count) { return random_below(count) == 0; }

/* What the model says of a call. */
static bool is_bound(const struct model *model, int64_t variable) {
    for (size_t i = 0; i < model->variables; i++)
        if (model->variable[i] == variable) return true;
    return false;
}
static bool is_written(int32_t literal) { return literal != 0 && literal != INT32_MIN; }

static bool are_written(const struct list *list) {
    for (size_t i = 0; i < list->count; i++)
        if (!is_written(list->at[i])) return false;
    return true;
}
static bool are_bound(const struct model *model, const struct list *list) {
    for (size_t i = 0; i < list->count; i++)
        if (!is_bound(model, llabs(list->at[i]))) return false;
    return true;
}
static const struct step *step_of(const struct model *model, uint64_t number) {
    for (size_t i = 0; i < model->steps; i++)
        if (model->step[i].number == number) return &model->step[i];
    return NULL;
}

/* Whether a call of this status did what the model says: `fault` stands, by itself or with others, if it is not 0. */
static bool is_status(int32_t status, bool may_be, const char *what) {
    bool refused = status == QRP_NO_MEMORY && was_refused;
    settle(may_be || refused, what);
    return status == QRP_ADDED;
}

/* The texts of the model. */
struct text { char at[TEXT]; size_t length; };

static void put(struct text *text, const char *word) {
    size_t length = strlen(word);
    if (text->length + length >= TEXT) abort();
    memcpy(text->at + text->length, word, length + 1);
    text->length += length;
}
static void put_number(struct text *text, const char *before, uint64_t number) {
    char word[24];
    put(text, before);
    snprintf(word, sizeof word, "%" PRIu64, number);
    put(text, word);
}
static void put_literals(struct text *text, const struct list *list, const char *before) {
    for (size_t i = 0; i < list->count; i++, before = " ")
        put(text, before), put_number(text, list->at[i] < 0 ? "-" : "", (uint64_t)llabs(list->at[i]));
    put(text, before), put(text, "0");
}
static void put_header(struct text *text, const char *kind, const struct model *model, size_t count) {
    uint32_t greatest = 0;
    for (size_t i = 0; i < model->variables; i++)
        if (model->variable[i] > greatest) greatest = model->variable[i];
    text->length = 0;
    put_number(text, kind, greatest), put_number(text, " ", count), put(text, "\n");
}
static void put_formula(struct text *text, const struct model *model) {
    put_header(text, "p cnf ", model, model->clauses);
    for (size_t i = 0; i < model->variables; i++) {
        bool begins = i == 0 || model->universal[i] != model->universal[i - 1];
        if (begins) put(text, i == 0 ? "" : " 0\n"), put(text, model->universal[i] ? "a" : "e");
        put_number(text, " ", model->variable[i]);
    }
    if (model->variables) put(text, " 0\n");
    for (size_t i = 0; i < model->clauses; i++) put_literals(text, &model->clause[i], ""), put(text, "\n");
}
static void put_trace(struct text *text, const struct model *model, bool sat) {
    put_header(text, "p qrp ", model, model->steps);
    for (size_t i = 0; i < model->steps; i++) {
        const struct step *step = &model->step[i];
        put_number(text, "", step->number), put_literals(text, &step->literals, " ");
        for (size_t j = 0; j < step->antecedent_count; j++) put_number(text, " ", step->antecedents[j]);
        put(text, " 0\n");
    }
    put(text, sat ? "r sat\n" : "r unsat\n");
}

/* Pieces that are mostly right, so that some proofs are. */
static int32_t random_literal(const struct model *model) {
    static const int32_t odd[] = {0, INT32_MIN, INT32_MAX, -INT32_MAX, 7, -8};
    if (one_in(60) || model->variables == 0) return odd[random_below(6)];
    int32_t variable = (int32_t)model->variable[random_below((uint32_t)model->variables)];
    return one_in(2) ? variable : -variable;
}
static bool has(const struct list *list, int32_t literal) {
    for (size_t i = 0; i < list->count; i++)
        if (list->at[i] == literal) return true;
    return false;
}
static void put_into(struct list *list, int32_t literal) {
    if (list->count < LITERALS && !has(list, literal)) list->at[list->count++] = literal;
}
static struct list random_list(const struct model *model, uint32_t most) {
    struct list list = {.count = 0};
    for (uint32_t count = random_below(most + 1); count > 0; count--) list.at[list.count++] = random_literal(model);
    return list;
}
static size_t place_of(const struct model *model, int32_t literal) {
    size_t i = 0;
    while (i < model->variables && model->variable[i] != llabs(literal)) i++;
    return i;
}
/* The list without the literals of this quantifier that come after all others. */
static struct list reduced(const struct model *model, const struct list *list, bool universal) {
    struct list kept = {.count = 0};
    size_t last = 0;
    for (size_t i = 0; i < list->count; i++) {
        size_t place = place_of(model, list->at[i]);
        if (place < model->variables && model->universal[place] != universal && place + 1 > last) last = place + 1;
    }
    for (size_t i = 0; i < list->count; i++)
        if (place_of(model, list->at[i]) < last) kept.at[kept.count++] = list->at[i];
    return kept;
}
static const struct step *random_earlier(const struct model *model) { return &model->step[random_below((uint32_t)model->steps)]; }

static void resolve(struct step *step, const struct step *first, const struct step *second) {
    int32_t pivot = 0;
    for (size_t i = 0; i < first->literals.count && !pivot; i++)
        if (is_written(first->literals.at[i]) && has(&second->literals, -first->literals.at[i])) pivot = first->literals.at[i];
    for (size_t i = 0; i < first->literals.count; i++)
        if (first->literals.at[i] != pivot) put_into(&step->literals, first->literals.at[i]);
    for (size_t i = 0; i < second->literals.count; i++)
        if (!pivot || second->literals.at[i] != -pivot) put_into(&step->literals, second->literals.at[i]);
    step->antecedents[0] = first->number, step->antecedents[1] = second->number, step->antecedent_count = 2;
}
static void initial(struct step *step, const struct model *model) {
    if (one_in(2)) {
        step->literals = model->clause[random_below((uint32_t)model->clauses)];
        return;
    }
    for (size_t i = 0; i < model->clauses; i++) {
        const struct list *clause = &model->clause[i];
        int32_t literal = clause->count ? clause->at[random_below((uint32_t)clause->count)] : 1;
        if (!is_written(literal) || !has(&step->literals, -literal)) put_into(&step->literals, literal);
    }
}
static struct step random_step(const struct model *model) {
    static const uint64_t odd[] = {0, 1, UINT64_MAX, 5, 1u << 20};
    struct step step = {.number = one_in(30) ? odd[random_below(5)] : model->steps * 3 + 2};
    uint32_t kind = random_below(12);
    if (kind < 4 && model->clauses) initial(&step, model);
    else if (kind < 9 && model->steps) resolve(&step, random_earlier(model), random_earlier(model));
    else if (kind < 11 && model->steps) {
        const struct step *of = random_earlier(model);
        step.literals = of->literals, step.antecedents[0] = of->number, step.antecedent_count = 1;
    } else {
        step.literals = random_list(model, 4);
        step.antecedent_count = random_below(3);
        for (size_t i = 0; i < step.antecedent_count; i++) step.antecedents[i] = one_in(9) ? 0 : random_below(20);
    }
    if (!one_in(4) && (kind >= 4 || one_in(2))) step.literals = reduced(model, &step.literals, one_in(2));
    return step;
}

/* The calls that add. */
static void add_variable(struct qrp_proof *proof, struct model *model) {
    static const uint32_t odd[] = {0, 1u << 31, UINT32_MAX, INT32_MAX, 1000003};
    uint32_t variable = one_in(12) ? odd[random_below(5)] : 1 + random_below(6);
    bool universal = one_in(2), in_range = variable >= 1 && variable <= INT32_MAX;
    if (model->variables == VARIABLES) return;
    int32_t status = qrp_proof_variable(proof, universal, variable);
    int32_t wanted = !model->there ? QRP_NO_PROOF : !in_range ? QRP_OUT_OF_RANGE : is_bound(model, variable) ? QRP_BOUND_TWICE : QRP_ADDED;
    if (!is_status(status, status == wanted, "a variable")) return;
    model->variable[model->variables] = variable, model->universal[model->variables++] = universal;
}
/* Whether this may be the status of a clause. */
static bool is_clause_status(const struct model *model, const struct list *clause, int32_t status) {
    if (!are_written(clause)) return status == QRP_OUT_OF_RANGE || (status == QRP_NOT_BOUND && !are_bound(model, clause));
    return status == (are_bound(model, clause) ? QRP_ADDED : QRP_NOT_BOUND);
}
static void add_clause(struct qrp_proof *proof, struct model *model) {
    if (model->clauses == CLAUSES) return;
    struct list clause = random_list(model, 3);
    int32_t status = qrp_proof_clause(proof, clause.at, clause.count);
    bool is = model->there ? is_clause_status(model, &clause, status) : status == QRP_NO_PROOF;
    if (is_status(status, is, "a clause")) model->clause[model->clauses++] = clause;
}
static void add_clauses(struct qrp_proof *proof, struct model *model) {
    struct list clause[4];
    int32_t literals[4 * (LITERALS + 1)];
    size_t count = random_below(5), length = 0, added = SIZE_MAX;
    if (model->clauses + count > CLAUSES) return;
    for (size_t i = 0; i < count; i++) {
        clause[i] = random_list(model, 3);
        /* A zero would end the clause. */
        for (size_t j = 0; j < clause[i].count; j++) clause[i].at[j] += clause[i].at[j] == 0;
        memcpy(literals + length, clause[i].at, clause[i].count * sizeof *literals);
        literals[length + clause[i].count] = 0, length += clause[i].count + 1;
    }
    if (count && clause[count - 1].count && one_in(2)) length--;
    int32_t status = qrp_proof_clauses(proof, literals, length, &added);
    if (!model->there) {
        settle(status == QRP_NO_PROOF && added == 0, "clauses of no proof");
        return;
    }
    bool is = added <= count;
    for (size_t i = 0; i < added && is; i++) is = is_clause_status(model, &clause[i], QRP_ADDED);
    is_status(status, is && (added == count ? status == QRP_ADDED : is_clause_status(model, &clause[added], status) && status != QRP_ADDED),
              "clauses");
    for (size_t i = 0; i < added && i < count; i++) model->clause[model->clauses++] = clause[i];
}
static void add_step(struct qrp_proof *proof, struct model *model) {
    if (model->steps == STEPS) return;
    struct step step = random_step(model);
    uint64_t three[] = {1, 2, 3};
    bool many = one_in(50), in_range = step.number != 0 && are_written(&step.literals), used = step_of(model, step.number) != NULL;
    for (size_t i = 0; i < step.antecedent_count && !many; i++) in_range &= step.antecedents[i] != 0;
    int32_t status = qrp_proof_step(proof, step.number, step.literals.at, step.literals.count, many ? three : step.antecedents,
                                    many ? 3 : step.antecedent_count);
    bool faulty = many || !in_range || used, is = status == QRP_ADDED && !faulty;
    is |= (status == QRP_TOO_MANY_ANTECEDENTS && many) || (status == QRP_OUT_OF_RANGE && !in_range) || (status == QRP_NUMBER_USED && used);
    if (is_status(status, model->there ? is : status == QRP_NO_PROOF, "a step")) model->step[model->steps++] = step;
}

/* The calls that ask. Each answer is compared with that for the model's texts. */
static const struct qrp_verdict zeros;

static bool are_same(const struct qrp_verdict *one, const struct qrp_verdict *other) { return !memcmp(one, other, sizeof *one); }

/* Whether a text that a call wrote into a buffer of this room, which was full of x, is the wanted one. */
static bool is_text(const char *buffer, size_t room, size_t length, const struct text *wanted) {
    size_t used = length < room ? length + 1 : 0;
    if (length != wanted->length || (used && memcmp(buffer, wanted->at, used) != 0)) return false;
    for (size_t i = used; i < room; i++)
        if (buffer[i] != 'x') return false;
    return true;
}
static struct text formula, trace, trimmed, none;
static char buffer[TEXT];

static size_t random_room(size_t length) {
    size_t room = one_in(3) ? random_below(4) : length + random_below(4);
    memset(buffer, 'x', TEXT);
    return room < TEXT ? room : TEXT;
}
/* Whether the fault is that of memory, which was refused, with an empty text. */
static bool was_no_memory(const struct qrp_verdict *out, size_t room, size_t length) {
    return was_refused && out->status == QRP_NO_MEMORY && out->letter == 'C' && out->number == 5 && is_text(buffer, room, length, &none);
}
static void write_texts(struct qrp_proof *proof, const struct model *model, bool sat) {
    struct qrp_verdict out;
    size_t room = random_room(formula.length), length = qrp_proof_write_formula(proof, room ? buffer : NULL, room, &out);
    bool is = is_text(buffer, room, length, model->there ? &formula : &none) && are_same(&out, &zeros);
    settle(is || was_no_memory(&out, room, length), "the text of the formula");
    was_refused = false;
    room = random_room(trace.length);
    length = qrp_proof_write_trace(proof, sat, room ? buffer : NULL, room, &out);
    is = is_text(buffer, room, length, model->there ? &trace : &none) && are_same(&out, &zeros);
    settle(is || was_no_memory(&out, room, length), "the text of the trace");
}
static void write_trimmed(struct qrp_proof *proof, bool sat, bool any_pivot, const struct qrp_verdict *wanted) {
    struct qrp_verdict out;
    size_t room = random_room(trimmed.length), length = qrp_proof_write_trimmed(proof, sat, any_pivot, room ? buffer : NULL, room, &out);
    settle((is_text(buffer, room, length, &trimmed) && are_same(&out, wanted)) || was_no_memory(&out, room, length), "the trimmed trace");
}
static void list_core(struct qrp_proof *proof, bool sat, bool any_pivot, const uint64_t *core, size_t count,
                      const struct qrp_verdict *wanted) {
    uint64_t steps[STEPS + 4];
    struct qrp_verdict out;
    memset(steps, 0xa5, sizeof steps);
    size_t room = one_in(4) ? random_below(3) : count + random_below(3);
    size_t listed = qrp_proof_core(proof, sat, any_pivot, room ? steps : NULL, room, &out);
    bool no_memory = was_refused && out.status == QRP_NO_MEMORY && listed == 0;
    bool is = no_memory || (listed == count && are_same(&out, wanted));
    for (size_t i = 0; i < STEPS + 4; i++) is &= steps[i] == (!no_memory && room >= count && i < count ? core[i] : 0xa5a5a5a5a5a5a5a5);
    settle(is, "the core");
}
static void ask(struct qrp_proof *proof, const struct model *model) {
    bool sat = one_in(2), any_pivot = one_in(3), refusing_now = refusing;
    uint64_t core[STEPS];
    size_t count = 0;
    struct qrp_verdict wanted = zeros, out;
    put_formula(&formula, model), put_trace(&trace, model, sat);
    trimmed.length = 0, trimmed.at[0] = 0;
    refusing = false;
    if (model->there) {
        qrp_verify(formula.at, formula.length, trace.at, trace.length, any_pivot, &wanted);
        count = qrp_core(formula.at, formula.length, trace.at, trace.length, any_pivot, core, STEPS, &out);
        trimmed.length = qrp_trim(formula.at, formula.length, trace.at, trace.length, any_pivot, trimmed.at, TEXT, &out);
        verdicts++, verified[sat] += wanted.letter == 'V', of_step += wanted.letter == 'C' && wanted.number == 6;
    }
    refusing = refusing_now;
    memset(&out, 0x5a, sizeof out);
    int32_t status = qrp_proof_check(proof, sat, any_pivot, &out);
    bool no_memory = was_refused && out.status == QRP_NO_MEMORY && status == QRP_NO_MEMORY;
    settle(no_memory || (are_same(&out, &wanted) && status == (model->there ? wanted.status : QRP_NO_PROOF)), "the verdict");
    was_refused = false;
    list_core(proof, sat, any_pivot, core, count, &wanted);
    was_refused = false;
    write_texts(proof, model, sat);
    was_refused = false;
    write_trimmed(proof, sat, any_pivot, &wanted);
    calls += 4;
}

/* One more call on one of the structs. */
static void call(struct qrp_proof *proof, struct model *model) {
    static const char likely[] = "vvvvvvccccccccmmssssssssssssssssssssssssaaaamnf";
    uint32_t of = random_below(sizeof likely + 12);
    calls++, was_refused = false;
    /* The variables tend to come first, and then the clauses. */
    switch (of < sizeof likely - 1 ? likely[of] : model->variables < 3 ? 'v' : model->clauses < 3 ? 'c' : 's') {
    case 'v': add_variable(proof, model); break;
    case 'c': add_clause(proof, model); break;
    case 'm': add_clauses(proof, model); break;
    case 's': add_step(proof, model); break;
    case 'a': ask(proof, model); break;
    case 'n':
        if (!one_in(8) && model->there) break;
        int32_t status = qrp_proof_new(proof);
        if (is_status(status, status == QRP_ADDED, "new")) *model = (struct model){.there = true};
        break;
    case 'f':
        if (!one_in(8)) break;
        qrp_proof_free(proof);
        *model = (struct model){.there = false};
        break;
    }
}
static void sequence(bool refused) {
    static struct model models[2];
    struct qrp_proof proofs[3];
    memset(proofs, 0, sizeof proofs), memset(models, 0, sizeof models);
    refusing = refused;
    for (int i = 0; i < 2; i++) {
        if (one_in(6)) continue;
        was_refused = false;
        int32_t status = qrp_proof_new(&proofs[i]);
        models[i].there = is_status(status, status == QRP_ADDED, "new");
    }
    for (uint32_t count = 10 + random_below(90); count > 0; count--) {
        int i = one_in(4);
        call(&proofs[i], &models[i]);
        /* A struct may be moved. */
        if (one_in(20)) proofs[2] = proofs[i], memset(&proofs[i], 0, sizeof *proofs), proofs[i] = proofs[2];
    }
    for (int i = 0; i < 2; i++) was_refused = false, ask(&proofs[i], &models[i]), qrp_proof_free(&proofs[i]);
    refusing = false;
    settle(blocks == 0, "memory is given back");
}

int main(int count, char **words) {
    unsigned long sequences = count > 1 ? strtoul(words[1], NULL, 10) : 0;
    unsigned long long seed = count > 2 ? strtoull(words[2], NULL, 10) : 1;
    state = seed * 0x9E3779B97F4A7C15 + 1;
    for (unsigned long i = 0, before; i < sequences; i++) before = failed, sequence(i % 4 == 3), passed += failed == before;
    /* Each kind of answer has come, if there were enough sequences to expect it. */
    if (sequences >= 1000)
        settle(verified[0] > sequences / 20 && verified[1] > sequences / 50 && of_step > sequences && refusals > sequences,
               "answers of each kind");
    printf("orders of calls, seed %llu: %lu sequences with %lu calls and %lu verdicts, of which %lu false, %lu true and %lu of a step;"
           " %lu requests for memory refused\n", seed, sequences, calls, verdicts, verified[0], verified[1], of_step, refusals);
    printf("%lu %lu\n", passed, failed);
    return failed != 0;
}
