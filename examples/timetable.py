#!/usr/bin/env python3
"""Puts lessons into hours and rooms: no class, teacher or room is asked for twice at once, and some teachers are away at some hours."""
from solver import Formula, arguments, solve

HOURS = ["Mon 8", "Mon 9", "Mon 10", "Tue 8", "Tue 9", "Tue 10"]
ROOMS = ["lab", "hall", "attic"]
# class, subject, teacher, how many lessons, rooms that will do
LESSONS = [
    ("7a", "chemistry", "Curie", 2, ["lab"]), ("7a", "maths", "Noether", 2, ["hall", "attic"]), ("7a", "music", "Bach", 1, ["hall"]),
    ("7b", "chemistry", "Curie", 2, ["lab"]), ("7b", "maths", "Noether", 2, ["hall", "attic"]), ("7b", "music", "Bach", 1, ["hall"]),
    ("8a", "physics", "Meitner", 3, ["lab", "hall"]), ("8a", "maths", "Noether", 2, ["hall", "attic"]),
]
AWAY = {("Curie", "Mon 8"), ("Bach", "Tue 8"), ("Bach", "Tue 9"), ("Bach", "Tue 10")}


def units():
    """Each single lesson: class, subject, teacher, its number, rooms."""
    for group, subject, teacher, count, rooms in LESSONS:
        for number in range(count):
            yield group, subject, teacher, number, rooms


def formula_of():
    formula = Formula()
    places = [(hour, room) for hour in HOURS for room in ROOMS]
    for group, subject, teacher, number, rooms in units():
        fit = [(hour, room) for hour, room in places if room in rooms and (teacher, hour) not in AWAY]
        formula.exactly_one([formula.var(group, subject, teacher, number, *place) for place in fit])
    names = list(formula.numbers)
    for hour in HOURS:
        now = [name for name in names if name[4] == hour]
        for part, values in ((0, {name[0] for name in now}), (2, {name[2] for name in now}), (5, set(ROOMS))):
            for value in sorted(values):
                formula.at_most_one([formula.var(*name) for name in now if name[part] == value])
    return formula


def main():
    arguments(__doc__).parse_args()
    true = solve(formula_of())
    if true is None:
        print("no timetable")
        return
    at = {(name[4], name[5]): f"{name[0]} {name[1]} ({name[2]})" for name in true}
    print(f"{'':8}" + "".join(f"{room:26}" for room in ROOMS))
    for hour in HOURS:
        print(f"{hour:8}" + "".join(f"{at.get((hour, room), '-'):26}" for room in ROOMS).rstrip())


if __name__ == "__main__":
    main()
