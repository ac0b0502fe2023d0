#!/usr/bin/env python3
"""tell.py COMMAND LINE NAME=PATH ..: tells on standard error what a line of a report comes from.

LINE is a refusal, a read fault or a limit, as the planner prints it; COMMAND is what was asked; each NAME is a file of the call
(domain, problem, plan, proof, model), and PATH where it stands. Status 0, or 1 where there is nothing to tell."""
import sys

sys.dont_write_bytecode = True
from messages.calls import tell_line


def main(words):
    """Tells it; answers the exit status."""
    command, line, *named = words
    return 0 if tell_line(line, dict(it.split("=", 1) for it in named), command) else 1


if __name__ == "__main__":
    sys.exit(main(sys.argv[1:]))
