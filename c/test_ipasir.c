/* What `examples/counter.c` doesn't try of the library: what is no literal is refused, and changes no other solver. Prints what is wrong. */
#include "ipasir.h"

#include <limits.h>
#include <stdio.h>

static int faults;

static void expect(const char *what, int found, int wanted) {
    if (found != wanted) {
        printf("%s: %d, and not %d\n", what, found, wanted);
        faults++;
    }
}

/* A solver of the clause 1 2. */
static void *solver_of_a_clause(void) {
    void *solver = ipasir_init();
    ipasir_add(solver, 1), ipasir_add(solver, 2), ipasir_add(solver, 0);
    return solver;
}

/* Without the refusal `-2 0` would be a clause, and so would `-1 0`. */
static void refuse_to_assume(const char *what, int lit) {
    void *solver = solver_of_a_clause();
    ipasir_assume(solver, lit), ipasir_assume(solver, -2), ipasir_assume(solver, 0), ipasir_assume(solver, -1);
    for (int question = 0; question < 2; question++)
        expect(what, ipasir_solve(solver), 0);
    ipasir_release(solver);
}

static void refuse_to_add(const char *what, int lit) {
    void *solver = solver_of_a_clause();
    ipasir_add(solver, lit), ipasir_add(solver, 0);
    expect(what, ipasir_solve(solver), 0);
    ipasir_release(solver);
}

static void ask_of_no_literals(void) {
    void *solver = solver_of_a_clause();
    const int none[] = {0, 3, -3, 1000, INT_MAX, INT_MIN};
    for (int question = 0; question < 3; question++) {
        for (size_t place = 0; place < sizeof none / sizeof *none; place++) {
            expect("value of no literal", ipasir_val(solver, none[place]), 0);
            expect("failure of no literal", ipasir_failed(solver, none[place]), 0);
        }
        ipasir_assume(solver, -1), ipasir_assume(solver, question ? -2 : 2);
        expect("answer", ipasir_solve(solver), question ? 20 : 10);
        if (question)
            expect("failure", ipasir_failed(solver, -1), 1);
        else
            expect("value", ipasir_val(solver, 1), -1);
    }
    ipasir_release(solver);
}

int main(void) {
    refuse_to_assume("0 assumed", 0);
    refuse_to_assume("a variable above the limit assumed", 100000001);
    refuse_to_add("a variable above the limit added", -100000001);
    refuse_to_add("the least number added", INT_MIN);
    ask_of_no_literals();
    return faults != 0;
}
