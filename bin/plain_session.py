"""Random sessions, `cubesat session` beside a truth table: what `bin/fuzz` plays."""
import contextlib
import functools
import operator
import subprocess
import threading

CALLS, VARIABLES, SECONDS = 100, 12, 60
# the variables are some of those up to one of these
GREATEST = (VARIABLES, VARIABLES, 2000)
# what stands behind a call; a question has to end its line, and be flushed, before its answer comes
CUTS = ("\n", "\n", "\n", " ", "\n\n", " \t\n")


@functools.cache
def assignments(literal):
    """Those that make a literal true, a bit each."""
    return sum(1 << it for it in range(1 << VARIABLES) if (it >> abs(literal) - 1 & 1) == (literal > 0))


def some(literals):
    return functools.reduce(operator.or_, map(assignments, literals), 0)


def every(literals):
    return functools.reduce(operator.and_, map(assignments, literals), (1 << (1 << VARIABLES)) - 1)


def is_session_answer(status, literals, models, asked):
    """Whether an answer is right, by the assignments that satisfy the clauses, and the assumptions."""
    if status == 10:
        return {*asked} <= {*literals} and every(literals) & models != 0
    return {*literals} <= {*asked} and every(literals) & models == 0


def is_whole(literals, named):
    """Whether a model has each variable up to the greatest of those named so far, and others are false."""
    return [*map(abs, literals)] == [*range(1, max(named, default=0) + 1)] and all(it < 0 for it in literals if abs(it) not in named)


class Session:
    """A program that answers, and what it was sent and has said so far. One that hangs is ended, so that its answer can't be read."""

    def __init__(self, program):
        self.sent = self.said = ""
        self.ran = subprocess.Popen([program, "session"], stdin=subprocess.PIPE, stdout=subprocess.PIPE, stderr=subprocess.STDOUT, text=True)
        self.watch = threading.Timer(SECONDS, self.ran.kill)
        self.watch.start()

    def send(self, text):
        self.sent += text
        self.ran.stdin.write(text)

    def line(self):
        line = self.ran.stdout.readline()
        self.said += line
        return line

    def answer(self):
        """The status of an answer, which has to be there before more is sent, and its literals; no status where it can't be read."""
        self.ran.stdin.flush()
        status, begin = {"s SATISFIABLE\n": (10, "v "), "s UNSATISFIABLE\n": (20, "c core "), "s UNKNOWN\n": (0, "")}.get(self.line(), (None, ""))
        literals = []
        while begin and literals[-1:] != [0]:
            line = self.line()
            if not line.startswith(begin):
                return None, []
            literals += map(int, line[len(begin):].split())
        return status, literals[:-1]

    def ends(self):
        """Its status, and whether it said no more."""
        self.ran.stdin.close()
        rest = self.ran.stdout.read()
        return self.ran.wait(), rest == ""

    def end(self):
        self.watch.cancel()
        self.ran.kill()
        self.ran.wait()
        with contextlib.suppress(OSError):
            self.ran.stdin.close()
        self.ran.stdout.close()


def random_clause(dice, variables):
    """A literal may stand in it twice, or with both signs."""
    length = dice.choice((0, 1, 2, 2, 3, 3, 3, 3, 4, 5)) if dice.random() < 0.3 else 3
    return [dice.choice((-1, 1)) * dice.randint(1, variables) for _ in range(length)]


class Sequence:
    """Random calls of a session. A clause that would leave no model is added seldom, since each question behind it has one answer."""

    def __init__(self, dice, session, counts):
        self.dice, self.session, self.counts = dice, session, counts
        self.variables = dice.randint(1, VARIABLES)
        numbers = dice.sample(range(1, dice.choice(GREATEST) + 1), VARIABLES)
        self.numbers = {place * sign: number * sign for place, number in enumerate(numbers, 1) for sign in (1, -1)}
        self.places = {number: place for place, number in self.numbers.items()}
        self.models, self.named, self.status, self.is_limited = every([]), set(), 0, False

    def name(self, literals):
        """The literals in the numbers that the text has for variables."""
        said = [self.numbers[it] for it in literals]
        self.named |= {*map(abs, said)}
        return said

    def put(self, *words, ends_line=False):
        self.session.send(" ".join(map(str, words)) + ("\n" if ends_line else self.dice.choice(CUTS)))

    def add(self):
        clause = random_clause(self.dice, self.variables)
        if self.models & some(clause) or self.dice.random() < 0.03:
            self.put(*self.name(clause), 0)
            self.models &= some(clause)

    def limit(self):
        self.put("t", self.dice.choice((1, 5, 60)))
        self.is_limited = True

    def ask(self):
        """What is wrong with the answer to a question, or nothing."""
        asked = [self.dice.choice((-1, 1)) * self.dice.randint(1, self.variables) for _ in range(self.dice.choice((0, 0, 1, 2, 3, 4, 6, 9)))]
        self.put("a", *self.name(asked), 0, ends_line=True)
        status, said = self.session.answer()
        literals = [self.places[it] for it in said if it in self.places]
        is_read = status is not None and (is_whole(said, self.named) if status == 10 else len(literals) == len(said))
        is_right = is_read and (self.is_limited if status == 0 else is_session_answer(status, literals, self.models, asked))
        self.counts[{10: "answers with a model", 20: "with a core", 0: "with neither"}.get(status)] += 1
        self.status, self.is_limited = status, False
        return None if is_right else f"an answer to {self.name(asked)}: {status}, {said}"

    def play(self):
        """What is wrong with an answer or with the status, or nothing."""
        self.put("p", "inccnf")
        for _ in range(CALLS):
            call = self.dice.choices((self.add, self.ask, self.limit), (50, 45, 5))[0]
            fault = call()
            if fault:
                return fault
        ended = self.session.ends()
        return None if ended == (self.status, True) else f"status {ended[0]}, and not {self.status}"


def play(dice, program, counts):
    """A sequence of calls: what is wrong, or nothing, what was sent and what was said."""
    session = Session(program)
    try:
        fault = Sequence(dice, session, counts).play()
    except BrokenPipeError:
        fault = "it ended before its input did"
    finally:
        session.end()
    return fault, session.sent, session.said
