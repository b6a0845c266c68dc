/* Empty texts, lists and buffers as NULL, in C and in C++, under the sanitizers; tests/library/test-library compiles and runs it. What each
   call does with NULL is what it does with an address of no bytes. */
#include "qrp_check.h"
#include <stdio.h>
#include <string.h>

static int failed, passed;

static void settle(int is, const char *what) {
    if (is) { passed++; return; }
    failed++;
    printf("FAILED: %s as NULL\n", what);
}

int main(void) {
    static const char clause[] = "p cnf 0 1\n0\n", refutation[] = "p qrp 0 1\n1 0 0\nr unsat\n";
    static const char gates[] = "#QCIR-14\noutput(g)\ng = and()\n", proof_of_gates[] = "p qrp 1 2\n1 1 0 0\n2 0 1 0\nr sat\n";
    const char *none = "";
    uint64_t no_numbers[1];
    char no_text[1];
    struct qrp_verdict by_null, by_address;
    struct qrp_proof proof;
    size_t with_null, with_address, added = 7;
    memset(&proof, 0, sizeof proof);

    settle(qrp_verify(NULL, 0, NULL, 0, false, &by_null) == qrp_verify(none, 0, none, 0, false, &by_address)
               && !memcmp(&by_null, &by_address, sizeof by_null) && by_null.letter == 'F', "both texts");
    settle(qrp_verify(clause, sizeof clause - 1, NULL, 0, false, &by_null) == QRP_TEXT_REFUSED && by_null.letter == 'P', "the trace");
    with_null = qrp_trim(clause, sizeof clause - 1, refutation, sizeof refutation - 1, false, NULL, 0, &by_null);
    with_address = qrp_trim(clause, sizeof clause - 1, refutation, sizeof refutation - 1, false, no_text, 0, &by_address);
    settle(with_null == with_address && with_null > 0 && by_null.letter == 'V', "the buffer of qrp_trim");
    with_null = qrp_strategy(clause, sizeof clause - 1, refutation, sizeof refutation - 1, false, true, NULL, 0, &by_null);
    with_address = qrp_strategy(clause, sizeof clause - 1, refutation, sizeof refutation - 1, false, true, no_text, 0, &by_address);
    settle(with_null == with_address && with_null > 0 && by_null.letter == 'V', "the buffer of qrp_strategy");
    settle(qrp_format(clause, sizeof clause - 1, NULL, 0, &by_null) == sizeof clause - 1, "the buffer of qrp_format");
    settle(qrp_format(NULL, 0, NULL, 0, &by_null) == 0 && by_null.letter == 'F', "the text of qrp_format");
    with_null = qrp_core(clause, sizeof clause - 1, refutation, sizeof refutation - 1, false, NULL, 0, &by_null);
    with_address = qrp_core(clause, sizeof clause - 1, refutation, sizeof refutation - 1, false, no_numbers, 0, &by_address);
    settle(with_null == with_address && with_null == 1 && by_null.letter == 'V', "the list of qrp_core");
    settle(qrp_verdict_line(&by_null, NULL, 0) == strlen("VERIFIED false\n"), "the buffer of qrp_verdict_line");
    settle(qrp_fault_text(&by_null, NULL, 0) == 0, "the buffer of qrp_fault_text");

    settle(qrp_gates_verify(NULL, 0, NULL, 0, false, &by_null) == qrp_gates_verify(none, 0, none, 0, false, &by_address)
               && !memcmp(&by_null, &by_address, sizeof by_null) && by_null.letter == 'Q', "both texts of gates");
    settle(qrp_gates_verify(gates, sizeof gates - 1, NULL, 0, false, &by_null) == QRP_TEXT_REFUSED && by_null.letter == 'P',
           "the trace of gates");
    settle(qrp_gates_clauses(gates, sizeof gates - 1, NULL, 0, &by_null) > 0 && by_null.letter == 0, "the buffer of qrp_gates_clauses");
    settle(qrp_gates_clauses(NULL, 0, NULL, 0, &by_null) == 0 && by_null.letter == 'Q', "the text of qrp_gates_clauses");
    with_null = qrp_gates_strategy(gates, sizeof gates - 1, proof_of_gates, sizeof proof_of_gates - 1, false, true, NULL, 0, &by_null);
    with_address = qrp_gates_strategy(gates, sizeof gates - 1, proof_of_gates, sizeof proof_of_gates - 1, false, true, no_text, 0, &by_address);
    settle(with_null == with_address && with_null > 0 && by_null.letter == 'V', "the buffer of qrp_gates_strategy");

    settle(qrp_proof_clause(&proof, NULL, 0) == QRP_NO_PROOF, "a clause of no proof");
    settle(qrp_proof_new(&proof) == QRP_ADDED && qrp_proof_clause(&proof, NULL, 0) == QRP_ADDED, "the literals of a clause");
    settle(qrp_proof_clauses(&proof, NULL, 0, &added) == QRP_ADDED && added == 0, "the literals of many clauses");
    settle(qrp_proof_step(&proof, 1, NULL, 0, NULL, 0) == QRP_ADDED, "the literals and the antecedents of a step");
    settle(qrp_proof_check(&proof, false, false, &by_null) == QRP_VERIFIED && by_null.letter == 'V' && !by_null.truth, "a proof");
    settle(qrp_proof_core(&proof, false, false, NULL, 0, &by_null) == 1 && by_null.letter == 'V', "the list of qrp_proof_core");
    settle(qrp_proof_write_formula(&proof, NULL, 0, &by_null) == strlen("p cnf 0 1\n0\n"), "the buffer of qrp_proof_write_formula");
    settle(qrp_proof_write_trace(&proof, false, NULL, 0, &by_null) == strlen("p qrp 0 1\n1 0 0\nr unsat\n"),
           "the buffer of qrp_proof_write_trace");
    settle(qrp_proof_write_trimmed(&proof, false, false, NULL, 0, &by_null) == strlen("p qrp 0 1\n1 0 0\nr unsat\n")
               && by_null.letter == 'V', "the buffer of qrp_proof_write_trimmed");
    qrp_proof_free(&proof);
    qrp_proof_free(NULL);
    settle(qrp_proof_clause(&proof, NULL, 0) == QRP_NO_PROOF, "no proof to give back");
    printf("empty: %d passed, %d failed\n", passed, failed);
    return failed != 0;
}
