"""The page of a report. All that comes from outside is escaped; there is no script, and nothing is loaded."""
import hashlib
import html

from view.style import STYLE
from view.tell import count, tell_certificate, tell_end, tell_more

WORDS = {
    "refuted": "no plan of so many steps",
    "dropped": "left, since a higher one is refuted",
    "open": "not decided",
    "plan": "a plan of so many steps",
}
FOLD = 4
FEW_HORIZONS = 8
MANY_STEPS = 30
MOST_LINES = 200
GAP = 3
COLOURS = 10


def escaped(text):
    """A text in which nothing is markup."""
    return html.escape(text.encode("utf-8", "replace").decode("utf-8"))


class Marks:
    """The calls of a plan as pieces of the page, with a colour for each name of an action, in order of appearance."""

    def __init__(self, steps):
        names = dict.fromkeys(call[0] for calls in steps for call in calls)
        self.colours = {name: f"c{number % COLOURS}" for number, name in enumerate(names)}

    def mark(self, call, objects):
        """A call as a block: its name, and some of its objects."""
        rest = "".join(f" <span>{escaped(it)}</span>" for it in objects)
        title = escaped(f"({' '.join(call)})")
        return f'<div class="{self.colours[call[0]]}" title="{title}"><b>{escaped(call[0])}</b>{rest}</div>'

    def legend(self):
        """The names of the actions in their colours, where there are several."""
        if len(self.colours) < 2:
            return []
        names = "".join(f'<span class="{colour}"><b>{escaped(name)}</b></span> ' for name, colour in self.colours.items())
        return [f'<p class="legend">{names.rstrip()}</p>']


def merged(part):
    """The horizons in rows: the first and the last horizon, the word and the conflicts, which neighbours share."""
    rows = []
    for horizon, word, conflicts in part.horizons:
        if rows and rows[-1][2:] == (word, conflicts):
            rows[-1] = (rows[-1][0], horizon, word, conflicts)
        else:
            rows.append((horizon, horizon, word, conflicts))
    return rows


def bars(part):
    """The horizons as rows with bars."""
    rows = merged(part)
    most = max([row[3] for row in rows] + [1])
    lines = ['<table class="bars"><thead><tr><th>Horizon</th><th>Answer</th><th>Conflicts</th><th></th></tr></thead><tbody>']
    for first, last, word, conflicts in rows:
        name = str(first) if first == last else f"{first} to {last}"
        each = "" if first == last else " each"
        lines.append(
            f'<tr class="is-{word}"><th scope="row">{name}</th><td title="{WORDS[word]}">{word}</td><td class="n">'
            f'{conflicts:,}{each}</td><td class="bar"><i style="width:{100 * conflicts / most:.1f}%"></i></td></tr>'
        )
    return lines + ["</tbody></table>"]


def curve(part):
    """The conflicts of the horizons as a small curve, a mark a horizon."""
    first, last = part.horizons[0][0], part.horizons[-1][0]
    most = max([line[2] for line in part.horizons] + [1])
    points = [
        (10 + 580 * (horizon - first) / max(last - first, 1), 82 - 70 * conflicts / most, horizon, word, conflicts)
        for horizon, word, conflicts in part.horizons
    ]
    path = " ".join(f"{x:.1f},{y:.1f}" for x, y, *_ in points)
    lines = [
        f'<svg class="curve" viewBox="0 0 600 88" role="img" aria-label="Conflicts of horizons {first} to {last}">',
        '<line class="axis" x1="10" y1="82" x2="590" y2="82"/>',
        f'<polyline points="{path}"/>',
    ]
    for x, y, horizon, word, conflicts in points:
        told = f"horizon {horizon}: {word}, {count(conflicts, 'conflict')}"
        lines.append(f'<circle class="is-{word}" cx="{x:.1f}" cy="{y:.1f}" r="4"><title>{told}</title></circle>')
    return lines + ["</svg>", f'<div class="ends"><span>{first}</span><span>{last}</span></div>']


def horizons(part):
    """The horizons: as a table, or where there are many as a curve, under which the table is folded."""
    head = ["<h3>Horizons</h3>"]
    if len(part.horizons) <= FEW_HORIZONS:
        return head + bars(part)
    words = dict.fromkeys(line[1] for line in part.horizons)
    counts = ", ".join(f"{sum(1 for line in part.horizons if line[1] == word):,} {word}" for word in words)
    summary = f"{len(part.horizons):,} horizons: {counts}"
    keys = " ".join(f'<span class="is-{word}" title="{WORDS[word]}">{word}</span>' for word in words)
    key = f'<p class="key">Conflicts by horizon: {keys}</p>'
    return head + [key] + curve(part) + [f"<details><summary>{summary}</summary>", *bars(part), "</details>"]


def columns(steps):
    """The columns of the table: each step, but that three or more empty ones beside each other share one."""
    made, at = [], 0
    while at < len(steps):
        end = at
        while end < len(steps) and not steps[end]:
            end += 1
        if end - at >= GAP:
            made.append((at, end))
            at = end
        else:
            made.append((at, at + 1))
            at += 1
    return made


def cell(calls, name, marks):
    """What a row shows of a step: each action with the other objects that it names."""
    items = []
    for call in calls:
        objects = call[1:]
        if name is None and not objects:
            items.append(marks.mark(call, []))
        elif name is not None and name in objects:
            objects.remove(name)
            items.append(marks.mark(call, objects))
    if len(items) <= FOLD:
        return "".join(items)
    rest = "".join(items[FOLD - 1 :])
    return "".join(items[: FOLD - 1]) + f"<details><summary>{len(items) - FOLD + 1} more</summary>{rest}</details>"


def span(first, last):
    """The name of one step, or of some that are empty."""
    return str(first + 1) if last == first + 1 else f"{first + 1} to {last}"


def timeline(part, number, marks):
    """The plan as a table: a column a step, a row an object in the order in which the plan first names it."""
    steps = part.steps
    names = list(dict.fromkeys(it for calls in steps for call in calls for it in call[1:]))
    if any(len(call) == 1 for calls in steps for call in calls):
        names.append(None)
    cols = columns(steps)
    lines = ['<div class="table">']
    if len(cols) > MANY_STEPS:
        box = f"small{number}"
        lines.append(f'<input type="checkbox" id="{box}" class="small"><label for="{box}">small marks</label>')
    gaps = ["" if last == first + 1 else ' class="gap"' for first, last in cols]
    heads = "".join(f'<th scope="col"{gap}>{span(*col)}</th>' for col, gap in zip(cols, gaps))
    lines.append('<div class="scroll"><table class="plan">')
    lines.append(f'<thead><tr><th class="corner">Step</th>{heads}</tr></thead><tbody>')
    for name in names:
        head = escaped(name) if name is not None else "<em>no object</em>"
        cells = "".join(f"<td{gap}>{cell(steps[col[0]], name, marks)}</td>" for col, gap in zip(cols, gaps))
        lines.append(f'<tr><th scope="row">{head}</th>{cells}</tr>')
    return lines + ["</tbody></table></div></div>"]


def changed(change):
    """What a step makes true and false."""
    for word, atoms in zip(("true", "false"), change):
        if atoms:
            shown = " ".join(f"<code>{escaped(it)}</code>" for it in atoms)
            yield f'<p class="makes"><em>{word}</em> {shown}</p>'


def step_list(part, changes, marks):
    """The steps in the order in which they are executed, each with its calls in order."""
    lines = ['<ol class="steps">']
    for first, last in columns(part.steps):
        calls = part.steps[first]
        lines.append(f'<li><h4>{"Step" if last == first + 1 else "Steps"} {span(first, last)}</h4>')
        lines.append("".join(marks.mark(call, call[1:]) for call in calls) if calls else "<p>no action</p>")
        lines += changed(changes[first]) if changes else []
        lines.append("</li>")
    return lines + ["</ol>"]


def plan(part, number, changes):
    """The plan: the list of its steps beside its table."""
    if not any(part.steps):
        return ["<h3>Plan</h3>", "<p>The plan has no action.</p>"]
    marks = Marks(part.steps)
    lines = ["<h3>Plan</h3>", *marks.legend()]
    if changes:
        lines.append("<p>Under a step: the atoms that it makes <em>true</em>, and those that it makes <em>false</em>.</p>")
    return lines + ['<div class="beside">', *step_list(part, changes, marks), *timeline(part, number, marks), "</div>"]


def section(part, number, is_batch, changes):
    """The part of the page on one problem."""
    lines = ["<section>"]
    if is_batch:
        lines.append(f'<h2 id="problem{number}">Problem {number}</h2>')
    if part.generated:
        lines.append(f"<p>Generated: {part.generated[0]} {part.generated[1]}.</p>")
    lines.append(f'<p class="end">{escaped(tell_end(part))}</p>')
    lines += [f"<p>{escaped(it)}</p>" for it in tell_more(part)]
    if part.notes:
        notes = "\n".join(map(escaped, part.notes))
        lines += ["<h3>Comments</h3>", "<p>Nothing of them is checked here.</p>", f"<pre>{notes}</pre>"]
    if part.horizons:
        lines += horizons(part)
    if part.steps:
        lines += plan(part, number, changes)
    return lines + ["</section>"]


def certified(certificate):
    """The part of the page on a certificate."""
    first, *more = tell_certificate(certificate)
    return ["<section>", f'<p class="end">{escaped(first)}</p>', *(f"<p>{escaped(it)}</p>" for it in more), "</section>"]


def overview(parts):
    """The parts of a report on several problems as a table: what became of each, which leads to its part of the page."""
    rows = (
        f'<tr><th scope="row"><a href="#problem{number}">Problem {number}</a></th><td>{escaped(tell_end(part))}</td></tr>'
        for number, part in enumerate(parts, 1)
    )
    return ['<table class="parts"><tbody>', *rows, "</tbody></table>"]


def of_what(task, called):
    """What was asked for: the files with their SHA-256, and the command, as far as they are told."""
    rows = [(word, f"{escaped(path)} <code>{digest}</code>") for word, path, digest in task]
    if called:
        rows.append(("Command", f"<code>{escaped(called)}</code>"))
    lines = [f'<tr><th scope="row">{word}</th><td>{told}</td></tr>' for word, told in rows]
    return ['<table class="parts"><tbody>', *lines, "</tbody></table>"] if lines else []


def printed(data):
    """The report as it was printed, folded; of a long certificate its beginning."""
    text = data.decode("ascii")
    lines = text.split("\n")
    if lines[0].startswith("horizon ") and len(lines) - 1 > MOST_LINES:
        text = "\n".join(lines[:MOST_LINES]) + f"\n.. and {count(len(lines) - 1 - MOST_LINES, 'line')} more"
    return f'<details class="report"><summary>The report as it was printed</summary><pre>{escaped(text)}</pre></details>'


def footer(data, was_asked):
    """Where the page comes from, and what was checked."""
    if was_asked:
        told = (
            "For this page <code>./dokyreva check</code> was called on these files: the calls of the report are a plan of them, "
            "and what each step makes true and false is what it says of the beginnings of the plan. Nothing else was checked."
        )
    else:
        told = (
            "This page shows a report and checks nothing. <code>./dokyreva check</code> checks a plan, "
            "<code>./dokyreva verify</code> a certificate."
        )
    digest = hashlib.sha256(data).hexdigest()
    return [f"<footer><p>SHA-256 of the report: <code>{digest}</code>.</p>", f"<p>{told}</p></footer>"]


def page(data, report, task=(), changes=None, called="", place=()):
    """The whole page of a report. The task is rows of a word, a path and a sum; the place is lines of a file with a fault."""
    if report.certificate:
        title = tell_certificate(report.certificate)[0]
    else:
        title = "Plans" if report.is_batch else tell_end(report.parts[0])
    lines = [
        "<!DOCTYPE html>",
        '<html lang="en"><head><meta charset="utf-8">',
        "<meta http-equiv=\"Content-Security-Policy\" content=\"default-src 'none'; style-src 'unsafe-inline'\">",
        '<meta name="viewport" content="width=device-width, initial-scale=1">',
        f"<title>{escaped(title)}</title><style>{STYLE}</style></head><body>",
        f"<h1>{'Report on ' + count(len(report.parts), 'problem') if report.is_batch else 'Report'}</h1>",
    ]
    lines += of_what(task, called)
    if report.is_batch:
        lines += overview(report.parts)
    if report.certificate:
        lines += certified(report.certificate)
    for number, part in enumerate(report.parts, 1):
        lines += section(part, number, report.is_batch, changes)
    if place:
        lines += ["<h3>Where</h3>", f"<p>{escaped(place[0])}</p>", f"<pre>{escaped(place[1])}</pre>"]
    lines += [printed(data), *footer(data, changes is not None), "</body></html>"]
    return "\n".join(lines) + "\n"
