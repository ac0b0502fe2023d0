"""plain DOMAIN PROBLEM FOLDER: writes both files, in the fragment that the planner takes, into a folder, under their names.
plain DOMAIN PROBLEM --back PLAN: prints the calls of a plan of these as calls of the files as they are.

Each thing that is rewritten is a line `path:line:column: what`. With --back the calls are printed where they are a plan of the files by
an evaluator of this script, with all their conditions. Nothing of it is proved.

Statuses: 0 written, or a plan; 1 the calls are no plan of the files; 3 a file is no PDDL that is rewritten, with its place; 5 a file could not
be read; 6 the files could not be written; 7 other words."""
import os
import pathlib
import sys

from plainly import Plain, Refused

from messages.calls import tell_line, tell_unread
from pddl import File, NoTree
from rewrite import TooMany
from without_costs import OtherForm, are_words, put


def say(*words):
    """A line on standard error."""
    print("plain:", *words, file=sys.stderr)


def read_calls(path):
    """The calls of a plan file."""
    text = pathlib.Path(path).read_bytes().decode("latin-1").lower()
    lines = "\n".join(line.partition(";")[0] for line in text.split("\n"))
    return [it.split() for it in lines.replace("(", " ").split(")") if it.split()]


def main(words):
    """Answers the exit status."""
    is_back = len(words) == 4 and words[2] == "--back"
    if not is_back and not are_words(words):
        say("the words are DOMAIN PROBLEM FOLDER, two files of different names and a folder in which neither stands,",
            "or DOMAIN PROBLEM --back PLAN")
        return 7
    try:
        it = Plain(*words[:2])
        calls = read_calls(words[3]) if is_back else []
    except (Refused, OtherForm, TooMany) as why:
        print(why, file=sys.stderr)
        return 3
    except NoTree:
        return tell_no_list(words[:2])
    except OSError as fault:
        which = dict(zip(words[:2], ("domain", "problem"))).get(fault.filename, "plan")
        tell_unread(fault.filename or words[0], which)
        return 5
    except (IndexError, KeyError, AttributeError):
        say("a section of the files is not as PDDL has it: dokyreva check tells where")
        return 3
    return give_back(it, calls) if is_back else write(it, words)


def tell_no_list(paths):
    """Where a file is no list, as each command tells it; the status."""
    for path, which in zip(paths, ("domain", "problem")):
        try:
            File(path)
        except NoTree as why:
            tell_line(f"; refused syntax {which} {why.at}", {which: path}, "plain")
    return 3


def write(it, words):
    """Writes both files."""
    names = [os.path.basename(path) for path in words[:2]]
    try:
        put(pathlib.Path(words[2]), dict(zip(names, it.texts)))
    except OSError as fault:
        say(fault)
        return 6
    print(*it.told, sep="\n", end="\n" if it.told else "")
    print("wrote " + " and ".join(str(pathlib.Path(words[2]) / name) for name in names))
    return 0


def give_back(it, calls):
    """Prints calls of the files."""
    given, fault = it.back(calls)
    if fault:
        say(f"no plan of the files as they are: {fault}")
        return 1
    print(*[f"({' '.join(call)})" for call in given], sep="\n", end="\n" if given else "")
    return 0


if __name__ == "__main__":
    sys.exit(main(sys.argv[1:]))
