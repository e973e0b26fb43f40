"""`python -m cubesat` is the program; `python -m cubesat FILE` solves the formula in the file."""
import os
import sys

from . import NoProgram, find_program


def main() -> None:
    words = sys.argv[1:]
    command = ["solve"] if words and os.path.isfile(words[0]) else []
    try:
        os.execv(find_program(), ["cubesat", *command, *words])
    except NoProgram as error:
        sys.exit(f"cubesat: {error}")


if __name__ == "__main__":
    main()
