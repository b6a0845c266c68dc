/* The calls of include/qrp_check.h that take texts, lists or buffers. A caller in C++ has NULL for an empty one, and what is proved starts from
   addresses: so each call puts one in place of NULL, if the length is 0, and passes all else on as it is. As free(3), qrp_proof_free does
   nothing for NULL. What is passed on to has the name of the call with `lent` in it; packaging/build-library gives it that name. */
#include "qrp_check.h"

/* An address for empty texts, lists and buffers, aligned as each of them. Nothing reads or writes it. */
static uint64_t nothing;

#define LENT(pointer, length) ((length) == 0 ? (void *)&nothing : (void *)(pointer))

int32_t qrp_lent_verify(const void *, size_t, const void *, size_t, bool, struct qrp_verdict *);
size_t qrp_lent_verdict_line(const struct qrp_verdict *, char *, size_t);
size_t qrp_lent_fault_text(const struct qrp_verdict *, char *, size_t);
size_t qrp_lent_trim(const void *, size_t, const void *, size_t, bool, char *, size_t, struct qrp_verdict *);
size_t qrp_lent_strategy(const void *, size_t, const void *, size_t, bool, bool, char *, size_t, struct qrp_verdict *);
size_t qrp_lent_format(const void *, size_t, char *, size_t, struct qrp_verdict *);
size_t qrp_lent_core(const void *, size_t, const void *, size_t, bool, uint64_t *, size_t, struct qrp_verdict *);
int32_t qrp_lent_gates_verify(const void *, size_t, const void *, size_t, bool, struct qrp_verdict *);
size_t qrp_lent_gates_clauses(const void *, size_t, char *, size_t, struct qrp_verdict *);
size_t qrp_lent_gates_strategy(const void *, size_t, const void *, size_t, bool, bool, char *, size_t, struct qrp_verdict *);
int32_t qrp_lent_proof_clause(struct qrp_proof *, const int32_t *, size_t);
int32_t qrp_lent_proof_clauses(struct qrp_proof *, const int32_t *, size_t, size_t *);
size_t qrp_lent_proof_core(struct qrp_proof *, bool, bool, uint64_t *, size_t, struct qrp_verdict *);
int32_t qrp_lent_proof_step(struct qrp_proof *, uint64_t, const int32_t *, size_t, const uint64_t *, size_t);
size_t qrp_lent_proof_write_formula(struct qrp_proof *, char *, size_t, struct qrp_verdict *);
size_t qrp_lent_proof_write_trace(struct qrp_proof *, bool, char *, size_t, struct qrp_verdict *);
size_t qrp_lent_proof_write_trimmed(struct qrp_proof *, bool, bool, char *, size_t, struct qrp_verdict *);
void qrp_lent_proof_free(struct qrp_proof *);

int32_t qrp_verify(const void *formula, size_t formula_length, const void *trace, size_t trace_length, bool any_pivot,
                   struct qrp_verdict *out) {
    return qrp_lent_verify(LENT(formula, formula_length), formula_length, LENT(trace, trace_length), trace_length, any_pivot, out);
}

size_t qrp_verdict_line(const struct qrp_verdict *verdict, char *buffer, size_t room) {
    return qrp_lent_verdict_line(verdict, LENT(buffer, room), room);
}

size_t qrp_fault_text(const struct qrp_verdict *verdict, char *buffer, size_t room) {
    return qrp_lent_fault_text(verdict, LENT(buffer, room), room);
}

size_t qrp_trim(const void *formula, size_t formula_length, const void *trace, size_t trace_length, bool any_pivot, char *buffer,
                size_t room, struct qrp_verdict *out) {
    return qrp_lent_trim(LENT(formula, formula_length), formula_length, LENT(trace, trace_length), trace_length, any_pivot,
                         LENT(buffer, room), room, out);
}

size_t qrp_strategy(const void *formula, size_t formula_length, const void *trace, size_t trace_length, bool any_pivot, bool binary,
                    char *buffer, size_t room, struct qrp_verdict *out) {
    return qrp_lent_strategy(LENT(formula, formula_length), formula_length, LENT(trace, trace_length), trace_length, any_pivot, binary,
                             LENT(buffer, room), room, out);
}

size_t qrp_format(const void *formula, size_t formula_length, char *buffer, size_t room, struct qrp_verdict *out) {
    return qrp_lent_format(LENT(formula, formula_length), formula_length, LENT(buffer, room), room, out);
}

size_t qrp_core(const void *formula, size_t formula_length, const void *trace, size_t trace_length, bool any_pivot, uint64_t *steps,
                size_t room, struct qrp_verdict *out) {
    return qrp_lent_core(LENT(formula, formula_length), formula_length, LENT(trace, trace_length), trace_length, any_pivot,
                         LENT(steps, room), room, out);
}

int32_t qrp_gates_verify(const void *formula, size_t formula_length, const void *trace, size_t trace_length, bool any_pivot,
                         struct qrp_verdict *out) {
    return qrp_lent_gates_verify(LENT(formula, formula_length), formula_length, LENT(trace, trace_length), trace_length, any_pivot, out);
}

size_t qrp_gates_clauses(const void *formula, size_t formula_length, char *buffer, size_t room, struct qrp_verdict *out) {
    return qrp_lent_gates_clauses(LENT(formula, formula_length), formula_length, LENT(buffer, room), room, out);
}

size_t qrp_gates_strategy(const void *formula, size_t formula_length, const void *trace, size_t trace_length, bool any_pivot, bool binary,
                          char *buffer, size_t room, struct qrp_verdict *out) {
    return qrp_lent_gates_strategy(LENT(formula, formula_length), formula_length, LENT(trace, trace_length), trace_length, any_pivot, binary,
                                   LENT(buffer, room), room, out);
}

int32_t qrp_proof_clause(struct qrp_proof *proof, const int32_t *literals, size_t count) {
    return qrp_lent_proof_clause(proof, LENT(literals, count), count);
}

int32_t qrp_proof_clauses(struct qrp_proof *proof, const int32_t *literals, size_t count, size_t *added) {
    return qrp_lent_proof_clauses(proof, LENT(literals, count), count, added);
}

int32_t qrp_proof_step(struct qrp_proof *proof, uint64_t number, const int32_t *literals, size_t count, const uint64_t *antecedents,
                       size_t antecedent_count) {
    return qrp_lent_proof_step(proof, number, LENT(literals, count), count, LENT(antecedents, antecedent_count), antecedent_count);
}

size_t qrp_proof_core(struct qrp_proof *proof, bool sat, bool any_pivot, uint64_t *steps, size_t room, struct qrp_verdict *out) {
    return qrp_lent_proof_core(proof, sat, any_pivot, LENT(steps, room), room, out);
}

size_t qrp_proof_write_formula(struct qrp_proof *proof, char *buffer, size_t room, struct qrp_verdict *out) {
    return qrp_lent_proof_write_formula(proof, LENT(buffer, room), room, out);
}

size_t qrp_proof_write_trace(struct qrp_proof *proof, bool sat, char *buffer, size_t room, struct qrp_verdict *out) {
    return qrp_lent_proof_write_trace(proof, sat, LENT(buffer, room), room, out);
}

size_t qrp_proof_write_trimmed(struct qrp_proof *proof, bool sat, bool any_pivot, char *buffer, size_t room, struct qrp_verdict *out) {
    return qrp_lent_proof_write_trimmed(proof, sat, any_pivot, LENT(buffer, room), room, out);
}

void qrp_proof_free(struct qrp_proof *proof) {
    if (proof != NULL)
        qrp_lent_proof_free(proof);
}
