/* qrp_check.h: the proved checker of QBF proofs, in process.
 *
 * A formula in QDIMACS 1.1 and a trace in the text form of QRP are given as bytes in memory. The verdict is that of the program
 * `qrp_cmd check` on files with these bytes. A machine-checked proof shows of the library:
 *
 *     qrp_verify returns QRP_VERIFIED if and only if the bytes spell a closed prenex formula and a trace whose sets agree
 *     with it and in which the last empty step, and every step that it depends on, follows by the rules (QRP_NO_MEMORY aside);
 *     and then that formula is false if the trace says `r unsat`, and true if it says `r sat`, and `truth` says which.
 *
 *     qrp_strategy writes a circuit only if the trace is verified; each run of the circuit wins for the winner of the formula, and no
 *     output depends on an input of its own block or of a later one.
 *
 *     qrp_gates_verify and qrp_gates_strategy keep the same of a formula of gates, whose text is in QCIR-14, and of a trace that proves
 *     its result of the clauses of that formula; qrp_gates_clauses writes these clauses.
 *
 * The proof relies on what this page asks of the caller, on the toolchain that proved and built the library, on the C compiler, `ar`,
 * `objcopy` and the linker that packed it, and on the C library: on its malloc, realloc and free, and on memcpy, memmove and
 * memset. Link with -lqrp, or with libqrp.a; nothing else is needed. The manual page is qrp_check(3).
 *
 * What every caller must do; the library checks none of it:
 *   - No pointer is NULL, but for that of a text, a list or a buffer whose length or room is 0, which may be NULL or any address, and that
 *     of qrp_proof_free. GCC and Clang warn of another NULL that they see (-Wnonnull), and -fsanitize=undefined finds each at run time.
 *   - A text or a list has the length that is given, and nothing writes to it during the call. A list of numbers is aligned as its
 *     numbers are. Texts may have any alignment, and need not be NUL-terminated. Texts and lists may overlap each
 *     other, and stay the caller's.
 *   - What is written to (a buffer, a list of steps, a verdict) has the room that is given, is properly aligned, and overlaps
 *     nothing else that is passed to the call.
 *   - malloc, realloc and free are of one allocator, and a block is aligned to each power of two up to 16 that divides its size,
 *     as those of the C library are.
 *   - No call but qrp_verdict_line, qrp_fault_text and qrp_version comes from a signal handler, nor from the child that a process with
 *     several threads has forked, since it may call malloc or free.
 *
 * Memory: nothing that the library returns has to be freed: all results go to memory of the caller. The library takes what it needs by
 * malloc and realloc, and has freed all of it when a call returns, but for what a struct qrp_proof holds. It keeps no pointer of the
 * caller's and no state (tested, not proved).
 *
 * Threads: several threads may call at once, also on the same texts, since these are only read; each call needs memory of its own
 * for what it writes (tested, not proved).
 */
#ifndef QRP_CHECK_H
#define QRP_CHECK_H

#include <stdbool.h>
#include <stddef.h>
#include <stdint.h>

/* The version of this header, as qrp_version returns that of the library. */
#define QRP_VERSION_MAJOR 1
#define QRP_VERSION_MINOR 0
#define QRP_VERSION_PATCH 0
#define QRP_VERSION (QRP_VERSION_MAJOR * 10000 + QRP_VERSION_MINOR * 100 + QRP_VERSION_PATCH)

/* The pointer at this place among the arguments of a call, counted from 1, is not NULL. */
#if defined(__GNUC__)
#define QRP_NONNULL(place) __attribute__((nonnull(place)))
#else
#define QRP_NONNULL(place)
#endif

#ifdef __cplusplus
extern "C" {
#endif

/* The statuses; they are the program's exit statuses. */
enum qrp_status {
    QRP_VERIFIED = 0,      /* the trace proves its result, and `truth` is that of the formula */
    QRP_PROOF_REFUSED = 1, /* both texts are read, and the trace does not prove its result */
    QRP_TEXT_REFUSED = 2,  /* the text of the formula or of the trace is refused */
    QRP_NO_MEMORY = 4      /* out of memory: nothing is known; or, with Q13, a formula of gates has too many clauses */
};

/* What was found. It needs no value before a call, which writes each field. A struct of zeros is not a verdict: its letter is not 'V'. */
struct qrp_verdict {
    uint64_t position;   /* for C6 the number of the step, for C1, C2 and C3 the variable, for F, P and Q the line; else 0 */
    uint8_t status;      /* one of enum qrp_status */
    uint8_t truth;       /* 1 if the formula was verified to be true, else 0 */
    uint8_t letter;      /* 'V' if it was verified, or of the fault: 'F' of the formula's text, 'P' of the trace's, 'C' of the check, and
                            'Q' of a formula of gates */
    uint8_t number;      /* of the fault, for example 4 for C4; 0 if it was verified */
    uint8_t rule;        /* for C6 the number of the step's fault, for example 7 for S7; else 0 */
    uint8_t reserved[3]; /* 0 */
};

/* A buffer of this size has room for every line, with its zero. */
#define QRP_LINE_ROOM 48

/* A buffer of this size has room for every text of a fault, with its zero. */
#define QRP_FAULT_ROOM 128

/* The version of the library: 10000 times its first number, 100 times its second, and its third. */
uint32_t qrp_version(void);

/* Checks the trace against the formula, writes what was found to *out, and returns out->status.
 *
 * any_pivot: whether a resolution may be on a variable of either quantifier (QU-resolution and its dual); the flag --qu of the
 *   program.
 */
int32_t qrp_verify(const void *formula, size_t formula_length, const void *trace, size_t trace_length, bool any_pivot,
                   struct qrp_verdict *out) QRP_NONNULL(6);

/* The calls below that write a text work alike: they return its length without the zero that comes after it. If `room` is greater
 * than that length, the text and its zero are written to the front of the buffer, and else nothing is. The rest of the buffer is left
 * as it was, in either case and whatever is in the verdict. So a call with a room of 0 returns how much room is needed: one byte more
 * than the length. */

/* Writes the line of a verdict, as the program prints it, with its line end. The line is empty if the fields are not, all of them, those
 * of a verified verdict or of a fault, as in a struct of zeros. It takes no memory, so it also works after QRP_NO_MEMORY. */
size_t qrp_verdict_line(const struct qrp_verdict *verdict, char *buffer, size_t room) QRP_NONNULL(1);

/* Writes what the fault of a verdict means: one sentence, always the same for the same fault. It is empty if there is no fault. It
 * takes no memory. */
size_t qrp_fault_text(const struct qrp_verdict *verdict, char *buffer, size_t room) QRP_NONNULL(1);

/* Checks as qrp_verify does and writes the same to *out. If the trace is verified, it writes the trace with only the steps that the
 * proof needs, in canonical form, as `qrp_cmd trim` prints it; else the text is empty, and the length 0. The trimmed trace is itself
 * verified. A room of trace_length + 32 has been enough for every trace that was tried. */
size_t qrp_trim(const void *formula, size_t formula_length, const void *trace, size_t trace_length, bool any_pivot, char *buffer,
                size_t room, struct qrp_verdict *out) QRP_NONNULL(8);

/* Writes the formula in canonical form, as `qrp_cmd format` prints it, and zeros to *out, which are not a verdict, since nothing was
 * checked. If the formula is refused or there is no memory, *out has the fault, and the text is empty, and its length 0. A room of
 * formula_length + 32 has been enough for every formula that was tried. */
size_t qrp_format(const void *formula, size_t formula_length, char *buffer, size_t room, struct qrp_verdict *out) QRP_NONNULL(5);

/* Checks as qrp_verify does and writes the same to *out. If the trace is verified, it returns how many steps the proof needs, and if
 * `room` is not less than that, writes their numbers to the front of `steps`, in the order of the trace; else it returns 0. The rest
 * of `steps` is left as it was. */
size_t qrp_core(const void *formula, size_t formula_length, const void *trace, size_t trace_length, bool any_pivot, uint64_t *steps,
                size_t room, struct qrp_verdict *out) QRP_NONNULL(8);

/* Checks as qrp_verify does and writes the same to *out. If the trace is verified, it writes the winner's whole strategy as a circuit, as
 * the program `qrp_strategy` prints it: the existential player wins a true formula, and the universal player a false one. The inputs are the
 * variables of the other player, and the outputs those of the winner, each with its number in the formula as its symbol; docs/STRATEGY.md
 * says more. If *out has a fault, the text is empty, and its length 0. So it is too if the trace is verified and no circuit is made of it:
 * AIGER has numbers for 2147483647 inputs and gates. If memory for the circuit is refused, *out has the fault C5.
 *
 * binary: whether the text is in AIGER's binary format; else it is in the ASCII format. A binary text may hold zeros. A room of
 *   formula_length + trace_length has been enough for every solver's trace that was tried, but not for each formula with many variables. */
size_t qrp_strategy(const void *formula, size_t formula_length, const void *trace, size_t trace_length, bool any_pivot, bool binary,
                    char *buffer, size_t room, struct qrp_verdict *out) QRP_NONNULL(9);

/* Formulas of gates, in QCIR-14, as the program `qrp_gates` takes them. A trace is one of the clauses that qrp_gates_clauses writes. A fault of
 * the formula's text is Q2 to Q12; Q13, with the status QRP_NO_MEMORY, says that it has more than the 2147483647 clauses that QDIMACS can
 * count. */

/* Checks the trace against the clauses of the formula of gates, as `qrp_gates check` does, and else does as qrp_verify. */
int32_t qrp_gates_verify(const void *formula, size_t formula_length, const void *trace, size_t trace_length, bool any_pivot,
                         struct qrp_verdict *out) QRP_NONNULL(6);

/* Writes the clauses of the formula of gates in canonical form, as `qrp_gates clauses` prints them, and zeros to *out, which are not a
 * verdict. If the formula is refused, its clauses are too many or there is no memory, *out has the fault, and the text is empty, and its
 * length 0. */
size_t qrp_gates_clauses(const void *formula, size_t formula_length, char *buffer, size_t room, struct qrp_verdict *out) QRP_NONNULL(5);

/* Checks as qrp_gates_verify does and writes the same to *out, and else does as qrp_strategy, with the circuit that `qrp_gates strategy`
 * prints: its inputs and outputs are bound variables of the formula of gates alone. */
size_t qrp_gates_strategy(const void *formula, size_t formula_length, const void *trace, size_t trace_length, bool any_pivot, bool binary,
                          char *buffer, size_t room, struct qrp_verdict *out) QRP_NONNULL(9);

/* A formula and its proof that are handed over piece by piece, as a solver makes them, in place of two texts. The struct is the caller's, and
 * all of it is zero before the first call; from then on the library alone writes to it. It may be moved, but of two copies only one is used
 * from then on. The calls on one struct come one after the other, and all from one thread. What it holds takes memory by malloc, until
 * qrp_proof_free. */
struct qrp_proof {
    void *held;
    uint32_t present;
};

/* What the calls on a struct qrp_proof return. After each but QRP_ADDED the struct holds what it held before, and of qrp_proof_clauses those
 * clauses that it added. */
enum qrp_added {
    QRP_ADDED = 0,                 /* done; QRP_NO_MEMORY, 4, is: out of memory, so not done */
    QRP_OUT_OF_RANGE = 5,          /* a literal is 0 or -2^31, a variable 0 or above 2^31 - 1, or a step's number or antecedent 0 */
    QRP_BOUND_TWICE = 6,           /* the variable is bound already */
    QRP_NOT_BOUND = 7,             /* a variable of the clause is not bound */
    QRP_TOO_MANY_CLAUSES = 8,      /* there are 2^31 - 1 clauses already */
    QRP_NUMBER_USED = 9,           /* a step has this number already */
    QRP_TOO_MANY_ANTECEDENTS = 10, /* a step has at most two */
    QRP_NO_PROOF = 11              /* the struct holds nothing: qrp_proof_new comes first */
};

/* Lets the struct hold a formula without variables and clauses, and no step. What it held before is given back. */
int32_t qrp_proof_new(struct qrp_proof *proof) QRP_NONNULL(1);

/* Binds one more variable, inside of those that are bound: neighbours of one quantifier make a block. */
int32_t qrp_proof_variable(struct qrp_proof *proof, bool universal, uint32_t variable) QRP_NONNULL(1);

/* Adds a clause of so many literals, each a variable, or its negative if it is negated. Its variables are bound. */
int32_t qrp_proof_clause(struct qrp_proof *proof, const int32_t *literals, size_t count) QRP_NONNULL(1);

/* Adds many clauses at once. The list has the literals of one clause after the other, and a 0 ends each; the last clause may lack its 0.
 * *added gets how many clauses were added, from the first on. If a clause is not added, neither are those after it, and the status is that
 * of qrp_proof_clause for it. */
int32_t qrp_proof_clauses(struct qrp_proof *proof, const int32_t *literals, size_t count, size_t *added) QRP_NONNULL(1) QRP_NONNULL(4);

/* Adds a step: its number, which is not 0 and not that of another step, its literals, and the numbers of its antecedents: none of an initial
 * step, one of a reduction, two of a resolution. */
int32_t qrp_proof_step(struct qrp_proof *proof, uint64_t number, const int32_t *literals, size_t count, const uint64_t *antecedents,
                       size_t antecedent_count) QRP_NONNULL(1);

/* Checks the steps so far as a proof that the formula is true, if `sat`, or false. Writes to *out what qrp_verify would of the same formula
 * and steps as texts, if the sets of the trace are the prefix, and returns out->status. If the struct holds nothing it writes zeros, which
 * are not a verdict, and returns QRP_NO_PROOF. What the struct holds stays, so that more can be added and checked. */
int32_t qrp_proof_check(struct qrp_proof *proof, bool sat, bool any_pivot, struct qrp_verdict *out) QRP_NONNULL(1) QRP_NONNULL(4);

/* Checks as qrp_proof_check does and writes the same to *out. If the proof is verified, it returns how many steps it needs, and if `room` is
 * not less than that, writes their numbers to the front of `steps`, in the order in which they were added; else it returns 0. The rest of
 * `steps` is left as it was. */
size_t qrp_proof_core(struct qrp_proof *proof, bool sat, bool any_pivot, uint64_t *steps, size_t room, struct qrp_verdict *out)
    QRP_NONNULL(1) QRP_NONNULL(6);

/* Writes the formula that was handed over in canonical form, as a text for qrp_verify and the programs, and zeros to *out, which are not a
 * verdict. Its header has the greatest variable that is bound. If memory is refused, *out has the fault C5, and the text is empty, and its
 * length 0. The text is empty too, with zeros in *out, if the struct holds nothing. */
size_t qrp_proof_write_formula(struct qrp_proof *proof, char *buffer, size_t room, struct qrp_verdict *out) QRP_NONNULL(1) QRP_NONNULL(4);

/* Writes the steps that were handed over in canonical form, as a trace that says `r sat`, if `sat`, or `r unsat`; else as
 * qrp_proof_write_formula. The trace has no sets, so that they agree with each prefix. Nothing is checked: the two texts have the verdict
 * that qrp_proof_check writes, with the same step if one is refused, so `qrp-explain` explains it. */
size_t qrp_proof_write_trace(struct qrp_proof *proof, bool sat, char *buffer, size_t room, struct qrp_verdict *out)
    QRP_NONNULL(1) QRP_NONNULL(5);

/* Checks as qrp_proof_check does and writes the same to *out. If the proof is verified, it writes the same trace with only the steps that
 * the proof needs; else the text is empty, and its length 0. */
size_t qrp_proof_write_trimmed(struct qrp_proof *proof, bool sat, bool any_pivot, char *buffer, size_t room, struct qrp_verdict *out)
    QRP_NONNULL(1) QRP_NONNULL(6);

/* Gives back what the struct holds; it holds nothing then. It may be called again. For NULL it does nothing. */
void qrp_proof_free(struct qrp_proof *proof);

#ifdef __cplusplus
}
#endif
#endif
