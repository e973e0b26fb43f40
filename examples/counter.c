/* A counter counts up by one at each step, or stands still. After how many steps can it hold a number, 15 or the given one? */
#include <ipasir.h>
#include <stdio.h>
#include <stdlib.h>

enum { BITS = 8 };
#define CLAUSE(...) add(solver, (int[]){__VA_ARGS__, 0})

static void add(void *solver, const int *lits) {
    while (*lits) ipasir_add(solver, *lits++);
    ipasir_add(solver, 0);
}

static int bit(int step, int place) { return 1 + (2 * BITS + 1) * step + place; }
static int carry(int step, int place) { return bit(step, BITS + place); } /* that of place 0: whether it counts */

static void add_step(void *solver, int step) {
    for (int place = 0; place < BITS; place++) {
        int now = bit(step, place), next = bit(step + 1, place), in = carry(step, place), out = carry(step, place + 1);
        CLAUSE(-next, now, in), CLAUSE(-next, -now, -in), CLAUSE(next, -now, in), CLAUSE(next, now, -in);
        CLAUSE(-out, now), CLAUSE(-out, in), CLAUSE(out, -now, -in);
    }
}

int main(int count, char **words) {
    void *solver = ipasir_init();
    int steps = 0, number = count > 1 ? atoi(words[1]) : 15;
    if (!solver || number < 0 || number >> BITS) return 1;
    for (int place = 0; place < BITS; place++) CLAUSE(-bit(0, place));
    for (;; add_step(solver, steps++)) {
        for (int place = 0; place < BITS; place++) ipasir_assume(solver, number >> place & 1 ? bit(steps, place) : -bit(steps, place));
        int status = ipasir_solve(solver);
        if (status != 20) {
            printf(status == 10 ? "after %d steps\n" : "no answer after %d\n", steps);
            ipasir_release(solver);
            return status != 10;
        }
    }
}
