// The calls of IPASIR over MiniSat's core, to compare with.
#include "minisat/core/Solver.h"
using namespace Minisat;
struct Held {
    Solver solver;
    vec<Lit> clause, assumed;
    Lit lit(int number) {
        while (solver.nVars() < (number < 0 ? -number : number)) solver.newVar();
        return mkLit((number < 0 ? -number : number) - 1, number < 0);
    }
};
extern "C" {
void *ipasir_init() { return new Held; }
void ipasir_release(void *of) { delete static_cast<Held *>(of); }
void ipasir_add(void *of, int number) {
    Held *held = static_cast<Held *>(of);
    if (number) { held->clause.push(held->lit(number)); return; }
    held->solver.addClause(held->clause);
    held->clause.clear();
}
void ipasir_assume(void *of, int number) { Held *held = static_cast<Held *>(of); held->assumed.push(held->lit(number)); }
int ipasir_solve(void *of) {
    Held *held = static_cast<Held *>(of);
    int status = held->solver.solve(held->assumed) ? 10 : 20;
    held->assumed.clear();
    return status;
}
}
