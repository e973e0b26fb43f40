/* Questions of a growing formula: the calls of IPASIR, over `cubesat session`. Link libcubesat.a.
 *
 * Each solver is a program of its own, the one that the environment's CUBESAT names, or else `cubesat`
 * on the PATH. It ends with `ipasir_release`, or when the question that it is at is answered and its
 * caller is gone. Variables are at most 100,000,000. Once a solver has failed, as where memory is short,
 * its program is gone or what it was given is no literal, each question comes to 0, and standard error says why. */
#ifndef IPASIR_H
#define IPASIR_H

#ifdef __cplusplus
extern "C" {
#endif

/* The name of the solver. */
const char *ipasir_signature(void);

/* A solver without clauses, or a null pointer where no program can be started. */
void *ipasir_init(void);

/* Ends a solver. */
void ipasir_release(void *solver);

/* Puts a literal into the clause that is being added, or ends it with 0. */
void ipasir_add(void *solver, int lit_or_zero);

/* The literal, which isn't 0, has to be true in the answer to the next question. */
void ipasir_assume(void *solver, int lit);

/* Whether the clauses have a model in which the assumptions are true: 10, or 20 where they have none, or 0
 * where the question was ended. */
int ipasir_solve(void *solver);

/* After 10: the literal or its negation, whichever is true; 0 if either may be. */
int ipasir_val(void *solver, int lit);

/* After 20: whether the assumption is one of those with which there is no model. */
int ipasir_failed(void *solver, int lit);

/* From now on `terminate(data)` is called before a question and once a second while it is searched, and ends
 * it by a result that isn't 0. A null pointer takes that back. */
void ipasir_set_terminate(void *solver, void *data, int (*terminate)(void *data));

/* Does nothing: learnt clauses stay in the program. */
void ipasir_set_learn(void *solver, void *data, int max_length, void (*learn)(void *data, int *clause));

#ifdef __cplusplus
}
#endif
#endif
