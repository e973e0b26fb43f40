/* The calls of ipasir.h, each solver a child process that runs `cubesat session`. */
#define _GNU_SOURCE
#include "ipasir.h"

#include <errno.h>
#include <signal.h>
#include <spawn.h>
#include <stdbool.h>
#include <stdio.h>
#include <stdlib.h>
#include <string.h>
#include <sys/socket.h>
#include <sys/wait.h>
#include <unistd.h>

enum { MOST_VARS = 100000000, PIECE = 1 << 16, NUMBER = 13 };

/* Bytes that wait to be written, or a question's. */
typedef struct {
    char *bytes;
    size_t count, room;
} Text;

typedef struct {
    pid_t child;
    int ours;         /* our end of the child's standard input and output */
    FILE *answers;    /* the same, to be read */
    Text clauses;     /* what the child hasn't got yet */
    Text assumptions; /* of the next question */
    bool *holds;      /* by literal: true in the model, or one of the core */
    int vars;         /* so many variables has `holds` */
    int greatest;     /* variable of all */
    bool has_failed;
    void *data;
    int (*terminate)(void *);
} Solver;

static void put(Solver *solver, Text *text, const char *bytes) {
    size_t count = strlen(bytes);
    if (text->room - text->count < count) {
        size_t room = 2 * text->room + PIECE;
        char *more = realloc(text->bytes, room);
        if (!more) {
            solver->has_failed = true;
            return;
        }
        text->bytes = more;
        text->room = room;
    }
    memcpy(text->bytes + text->count, bytes, count);
    text->count += count;
}

static void put_lit(Solver *solver, Text *text, int lit) {
    char number[NUMBER];
    if (lit < -MOST_VARS || lit > MOST_VARS) {
        fprintf(stderr, "ipasir: %d: a variable above %d\n", lit, MOST_VARS);
        solver->has_failed = true;
        return;
    }
    solver->greatest = abs(lit) > solver->greatest ? abs(lit) : solver->greatest;
    snprintf(number, sizeof number, lit ? "%d " : "%d\n", lit);
    put(solver, text, number);
}

/* Writes a text to the child. No signal is sent where it has ended. */
static void send_text(Solver *solver, Text *text) {
    for (size_t sent = 0; sent < text->count && !solver->has_failed;) {
        ssize_t count = send(solver->ours, text->bytes + sent, text->count - sent, MSG_NOSIGNAL);
        if (count >= 0)
            sent += (size_t)count;
        else if (errno != EINTR)
            solver->has_failed = true;
    }
    text->count = 0;
}

/* Whether `holds` has a place for it. */
static bool is_literal(const Solver *solver, int lit) {
    return lit && lit >= -solver->vars && lit <= solver->vars;
}

static size_t place_of(int lit) {
    return 2 * (size_t)abs(lit) + (lit > 0);
}

/* Forgets the last answer, and makes room for the next. */
static void clear_answer(Solver *solver) {
    if (solver->vars < solver->greatest) {
        int vars = solver->greatest < MOST_VARS / 2 ? 2 * solver->greatest : MOST_VARS;
        bool *more = realloc(solver->holds, 2 * (size_t)vars + 2);
        if (!more) {
            solver->has_failed = true;
            return;
        }
        solver->holds = more;
        solver->vars = vars;
    }
    if (solver->holds)
        memset(solver->holds, 0, 2 * (size_t)solver->vars + 2);
}

/* Reads the literals of lines that begin so, up to a 0. */
static void read_lits(Solver *solver, const char *begin) {
    char *line = NULL;
    size_t room = 0;
    for (bool has_ended = false; !has_ended && !solver->has_failed;) {
        if (getline(&line, &room, solver->answers) < 0 || strncmp(line, begin, strlen(begin))) {
            solver->has_failed = true;
            break;
        }
        char *rest = line + strlen(begin), *end;
        for (long lit = strtol(rest, &end, 10); end != rest; lit = strtol(rest, &end, 10)) {
            has_ended = lit == 0;
            if (lit && labs(lit) <= solver->vars)
                solver->holds[place_of((int)lit)] = true;
            rest = end;
        }
    }
    free(line);
}

/* The status of an answer, of which the rest is read too. */
static int read_answer(Solver *solver) {
    char line[32];
    if (!solver->has_failed && fgets(line, sizeof line, solver->answers)) {
        if (!strcmp(line, "s SATISFIABLE\n")) {
            read_lits(solver, "v ");
            return solver->has_failed ? 0 : 10;
        }
        if (!strcmp(line, "s UNSATISFIABLE\n")) {
            read_lits(solver, "c core ");
            return solver->has_failed ? 0 : 20;
        }
        if (!strcmp(line, "s UNKNOWN\n"))
            return 0;
    }
    solver->has_failed = true;
    return 0;
}

/* Starts the program with a socket as its standard input and output; whether it could. */
static bool start(Solver *solver, int theirs) {
    extern char **environ;
    const char *program = getenv("CUBESAT");
    char *words[] = {(char *)(program && *program ? program : "cubesat"), "session", NULL};
    posix_spawn_file_actions_t actions;
    if (posix_spawn_file_actions_init(&actions))
        return false;
    int error = posix_spawn_file_actions_adddup2(&actions, theirs, STDIN_FILENO);
    error = error ? error : posix_spawn_file_actions_adddup2(&actions, theirs, STDOUT_FILENO);
    error = error ? error : posix_spawnp(&solver->child, words[0], &actions, NULL, words, environ);
    posix_spawn_file_actions_destroy(&actions);
    if (error)
        fprintf(stderr, "ipasir: %s: %s\n", words[0], strerror(error));
    return !error;
}

const char *ipasir_signature(void) {
    return "cubesat";
}

void *ipasir_init(void) {
    int ends[2];
    Solver *solver = calloc(1, sizeof *solver);
    if (!solver || socketpair(AF_UNIX, SOCK_STREAM | SOCK_CLOEXEC, 0, ends)) {
        free(solver);
        return NULL;
    }
    solver->ours = ends[0];
    solver->answers = fdopen(ends[0], "r");
    bool is_started = solver->answers && start(solver, ends[1]);
    close(ends[1]);
    if (!is_started) {
        if (solver->answers)
            fclose(solver->answers);
        else
            close(ends[0]);
        free(solver);
        return NULL;
    }
    put(solver, &solver->clauses, "p inccnf\n");
    return solver;
}

void ipasir_release(void *of) {
    Solver *solver = of;
    kill(solver->child, SIGKILL);
    while (waitpid(solver->child, NULL, 0) < 0 && errno == EINTR) {
    }
    fclose(solver->answers);
    free(solver->clauses.bytes);
    free(solver->assumptions.bytes);
    free(solver->holds);
    free(solver);
}

void ipasir_add(void *of, int lit_or_zero) {
    Solver *solver = of;
    put_lit(solver, &solver->clauses, lit_or_zero);
    if (solver->clauses.count >= PIECE)
        send_text(solver, &solver->clauses);
}

void ipasir_assume(void *of, int lit) {
    Solver *solver = of;
    if (!lit) { /* it would end the question, and what follows would be a clause */
        fprintf(stderr, "ipasir: 0: no literal to assume\n");
        solver->has_failed = true;
        return;
    }
    put_lit(solver, &solver->assumptions, lit);
}

int ipasir_solve(void *of) {
    Solver *solver = of;
    int status = 0;
    clear_answer(solver);
    put(solver, &solver->assumptions, "0\n");
    while (!solver->has_failed && !status && !(solver->terminate && solver->terminate(solver->data))) {
        put(solver, &solver->clauses, solver->terminate ? "t 1\na " : "a ");
        send_text(solver, &solver->clauses);
        size_t count = solver->assumptions.count;
        send_text(solver, &solver->assumptions);
        solver->assumptions.count = count; /* they may be needed once more */
        status = read_answer(solver);
        if (!solver->terminate)
            break;
    }
    solver->assumptions.count = 0;
    return status;
}

int ipasir_val(void *of, int lit) {
    Solver *solver = of;
    if (!is_literal(solver, lit))
        return 0;
    return solver->holds[place_of(lit)] ? lit : solver->holds[place_of(-lit)] ? -lit : 0;
}

int ipasir_failed(void *of, int lit) {
    Solver *solver = of;
    return is_literal(solver, lit) && solver->holds[place_of(lit)];
}

void ipasir_set_terminate(void *of, void *data, int (*terminate)(void *data)) {
    Solver *solver = of;
    solver->data = data;
    solver->terminate = terminate;
}

void ipasir_set_learn(void *solver, void *data, int max_length, void (*learn)(void *data, int *clause)) {
    (void)solver, (void)data, (void)max_length, (void)learn;
}
