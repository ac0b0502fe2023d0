"""Inputs for the program that walks through states, and what each answer has to agree with. For bench/reference/hostile --walks.

The words search, never, never-search and system refuse what `ground` of the reference refuses, with its status and its bytes. Of a
task that is taken, the reference walks through the states, breadth first, and its `check` runs each plan that is printed."""
import re
import hostile_inputs as inputs

STATES = 20000
WORDS = ["search", "search", "never", "never", "never-search", "system"]
NAMES = ["search", "never", "never-search", "system", "Search", "help", "", "never-formula"]
LEAST = re.compile(rb"; states ([0-9]+) of [0-9]+\n; plan of ([0-9]+) actions, the least\n")
PLAN = re.compile(rb"(?:; states [0-9]+ of [0-9]+\n)?; plan of ([0-9]+) actions\n")
NONE = re.compile(rb"; states [0-9]+ of [0-9]+\n; no plan of any length\n")
KINDS = [b"clauses forward\n", b"clauses backward\n", b"weights\n", b"", b"clauses\n"]

def certificate(r):
    """The text of a certificate, near to a lawful one."""
    lines = [b" ".join(b"%d" % r.choice([-3, -2, -1, 1, 2, 3, 4]) for _ in range(r.randint(0, 3))) + b" 0\n" for _ in range(r.randint(0, 4))]
    if r.random() < 0.3:
        lines = [b"%d %d\n" % (r.randint(1, 4), r.randint(-2, 3)) for _ in range(r.randint(0, 4))]
    text = r.choice(KINDS) + b"".join(lines)
    return text if r.random() < 0.8 else inputs.bytes_changed(r, text)

def words(r):
    """The words of a lawful command on a task."""
    word = r.choice(WORDS)
    if word == "search":
        return [word, "d", "p", "--how", r.choice(["least", "greedy"]), "--states", str(r.choice([1, 2, 7, 300, 5000]))]
    if word == "never":
        return [word, "d", "p"] + ["l"] * (r.random() < 0.6)
    return [word, "d", "p"] + (["--budget", str(r.choice([1, 5, 300]))] if word == "never-search" and r.random() < 0.7 else [])

def nearly_right(r):
    """Words of a command: options in any place, given twice, with `=`, cut off, without a value."""
    given = [[it] for it in ["d", "p"] + ["l"] * (r.random() < 0.2)]
    given = given[:-1] if r.random() < 0.1 else given
    for _ in range(r.choice([0, 1, 1, 2])):
        option = r.choice(["--how", "--states", "--memory", "--budget", "--help", "--version", "--format", "-h", "--stat"])
        value = r.choice(["least", "greedy", "Least", "", "1", "0", "500", "-1", "4294967295", "4294967296", "blif", "1e3"])
        given.insert(r.randint(0, len(given)), r.choice([[option, value], [f"{option}={value}"], [option]]))
    return [r.choice(NAMES)] + [it for part in given for it in part]

def next_input(r, spoilt_task):
    """Some input: words, and the files of a task that is spoilt, random, or costs more than it asks for."""
    how = r.random()
    if how < 0.1:
        return inputs.Input("words", nearly_right(r), files(inputs.random_task(r), b"weights\n"))
    if how < 0.45:
        return inputs.Input("spoilt", words(r), files(spoilt_task(r), certificate(r)))
    kind, made = ("task", inputs.random_task) if how < 0.85 else ("family", inputs.family_task)
    return inputs.Input(kind, words(r), files(made(r), certificate(r)))

def files(task, proof):
    return {"d": task.domain, "p": task.problem, "l": proof}

def least(run):
    """What the reference finds breadth first: the length of a shortest plan, none, or None where its states do not suffice or it cannot walk."""
    status, text = run(["search", "d", "p", "--how", "breadth", "--states", str(STATES)])
    found = PLAN.match(text)
    return int(found[1]) if found else "no plan" if status == 1 and b"; no plan of any length" in text else None

def runs(run, text, write):
    """Whether the reference's `check` takes the calls of a report."""
    write("plan", b"".join(line + b"\n" for line in text.split(b"\n") if line[:1] == b"("))
    return run(["check", "d", "p", "plan"])[0] == 0

def fault(shown, got, run, own, write):
    """What an answer does not agree with, or None. `run` and `own` are the reference and the program on other words."""
    status, text = got
    if shown.kind == "words":
        return None if status in range(10) and status != 6 else "a status of no table"
    word, (taken, refused) = shown.words[0], run(["ground", "d", "p"])
    if taken == 4 and word == "search":
        return None if status in (0, 1, 2, 4) else "neither a limit nor an answer"
    if taken != 0:
        return None if got == (taken, refused) else f"due as by ground: {taken} {refused[:160]!r}"
    if word == "system":
        return None if status in (0, 4) and text else "no system"
    if status == 3 and word == "never" and shown.words[3:]:
        return None if text.startswith(b"; refused syntax proof ") else "another refusal"
    return claimed(status, text, word, shown.words, run, own, write)

def claimed(status, text, word, words, run, own, write):
    """What the claim of an answer on a lawful task contradicts, or None."""
    due = least(run)
    if status == 2:
        return None
    if word == "search" and "least" in words:
        found = LEAST.match(text)
        return None if due is None or (found and int(found[2]) == due) or (NONE.match(text) and due == "no plan") else f"due: {due}"
    if (word == "never" and status == 0) or (word == "search" and status == 1):
        return f"there is a plan of {due} actions" if isinstance(due, int) else None
    if word == "never":
        return None if status == 1 and words[3:] and text.startswith(b"; rejected ") else "no answer of never"
    if (word == "search" and status == 0) or (word == "never-search" and status == 1):
        return None if runs(run, text, write) else "the plan does not run"
    write("set", text)
    if status == 0 and own(["never", "d", "p", "set"])[0] == 0 and not isinstance(due, int):
        return None
    return "the set is not one, or there is a plan"
