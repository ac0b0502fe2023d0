"""More faults than one: a part that is at fault and on which nothing else rests is overwritten by blanks, and the planner is asked
again, until it takes the rest or the fault lies where others rest on it."""
import pathlib
import tempfile

from messages.calls import REFUSED
from messages.fault import Files, tell_fault
from messages.text import Spot, tree_of

MOST = 20


def tell_every(call):
    """Tells all faults of the domain and the problem of a call that can be told; whether one was."""
    if len(call.files) < 2:
        return False
    paths = dict(zip(("domain", "problem"), call.files))
    files, told = Files(paths), 0
    try:
        texts = {name: pathlib.Path(path).read_bytes().decode("latin-1") for name, path in paths.items()}
    except OSError:
        return False
    with tempfile.TemporaryDirectory() as room:
        while told < MOST:
            for name, text in texts.items():
                (pathlib.Path(room) / name).write_bytes(text.encode("latin-1"))
            answer = call.planner.ask(10, "check", f"{room}/domain", f"{room}/problem", "/dev/null")
            found = REFUSED.match(answer[0]) if answer else None
            if not found or not tell_fault(files, found[1], found[2], int(found[3])):
                break
            told += 1
            left = without_part(texts[found[2]], found[1], int(found[3]))
            if left is None:
                break
            texts[found[2]] = left
    return told > 0


def without_part(text, kind, at):
    """A text without the part at fault, where nothing else rests on it: else nothing. All else keeps its offset."""
    tree = tree_of(text)
    if kind in ("syntax", "deep") or tree is None:
        return None
    spot = Spot(tree, at)
    if len(spot.path) < 2 or spot.places[1] < 2:
        return None
    section = spot.path[1]
    head = section.head()
    if head == ":init" and len(spot.path) > 2:
        return cut(text, spot.path[2])
    if head == ":goal":
        return text[: section.at] + "(:goal ())".ljust(section.end - section.at)[: section.end - section.at] + text[section.end :]
    if head == ":action" or kind == "unsupported" and len(spot.path) == 2 or kind == "duplicate" and head == ":requirements":
        return cut(text, section)
    if kind == "duplicate" and head == ":predicates" and len(spot.path) == 4:
        return cut(text, spot.path[2])
    return None


def cut(text, tree):
    """A text with blanks in the place of a tree."""
    blanks = "".join("\n" if it == "\n" else " " for it in text[tree.at : tree.end])
    return text[: tree.at] + blanks + text[tree.end :]
