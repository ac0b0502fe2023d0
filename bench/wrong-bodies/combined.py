"""One program of all that runs of these sources: the planner, the judge, the runs of layers, and each test.

The crate layer_runs of a copy of the sources gets the mains of the planner and of the judge as modules, the tests of the crates of
tests, and the small tests beside this file; the first word of a run says which of them it is of, and without one of these words it is a run of layers."""
import pathlib, re

SMALL = pathlib.Path(__file__).resolve().with_name("small-tests")
ROOT_CRATE = "layer_runs"
# Words with which the program waits for its first file.
WAITS = ["solve", "PIPE"]
# The crates that the program takes in, and under which name.
MAINS = {"plan_prog": "planner", "judge_prog": "judging"}
TESTS = {"layer_tests": "layer", "plan_tests": "plans", "poll_tests": "polls"}
MAIN = """
pub(crate) trait All: Abort + AllocGlobal + Files + Input + Print + Threads + Wait + Sync + RandomSource {}

impl<R: Abort + AllocGlobal + Files + Input + Print + Threads + Wait + Sync + RandomSource> All for R {}

fn run_test(rt: &impl All, name: &str) {
    match name {
%s
        _ => {}
    }
}

fn word_at(words: &[String], place: usize) -> &str {
    match words.get(place) {
        Some(word) => word.as_str(),
        None => "",
    }
}

fn run_layers(rt: &impl All, words: &[String]) -> io::Result<()> {
    let mut out = Out::new(rt.alloc());
    run_words(rt, &mut out, words);
    io::writer(rt).write_all(out.printed())?;
    out.ended()
}

fn main(rt: HostRuntime) -> ExitCode {
    let Ok(given) = env::args(&rt) else {
        return planner::run_program(&rt, rt.alloc(), env::args(&rt));
    };
    let Ok(words) = given.collect::<Vec<String>>(rt.alloc()) else {
        return planner::run_program(&rt, rt.alloc(), env::args(&rt));
    };
    let first = word_at(&words, 1);
    if first == "planner" {
        return planner::run_program(&rt, rt.alloc(), env::args(&rt));
    }
    if first == "judge" {
        return judging::run_program(&rt, rt.alloc(), env::args(&rt));
    }
    if first == "test" {
        run_test(&rt, word_at(&words, 2));
        return ExitCode::from(0);
    }
    match run_layers(&rt, &words) {
        Ok(_) => ExitCode::from(0),
        Err(_) => ExitCode::from(1),
    }
}
"""

# For a main that gives its words to a call which passes over the first one.
BEHIND = """
fn behind(given: io::Result<Args<Global>>) -> io::Result<Args<Global>> {
    let mut words = given?;
    let _ = words.next();
    Ok(words)
}
"""

TEST = re.compile(r"(?:#\[test\]\n)?((?:#\[[^\n]*\n)*)(?:pub\(crate\) )?fn (\w+)\(rt: HostRuntime\) \{\n(.*?\n\})\n", re.S)

def tests_of(text):
    """The names of the tests of a file."""
    return [it[2] for it in TEST.finditer(text)]

def as_functions(text):
    """A file's text in which each test is a function over a handle of the runtime, which only main and tests own."""
    return TEST.sub(lambda it: f"{it[1]}pub(crate) fn {it[2]}(rt: &impl crate::All) {{\n{it[3].replace('&rt', 'rt')}\n", text)

def all_tests(crates):
    """All tests, each as the words of its modules and its name."""
    files = [(module, it) for crate, module in TESTS.items() for it in sorted((crates / crate / "src/tests").glob("*.rt"))]
    return [(module, it.stem, name) for module, it in files for name in tests_of(it.read_text())] + [("small", name) for name in tests_of(SMALL.read_text())]

def take_tests(crates, source):
    """Takes in the modules of the crates of tests."""
    (source / "small.rt").write_text(as_functions(SMALL.read_text()))
    for crate, module in TESTS.items():
        listed = (crates / crate / "src/tests.rt").read_text()
        (source / f"{module}.rt").write_text(re.sub(r"^mod (\w+);", r"pub(crate) mod \1;", listed, flags=re.M))
        (source / module).mkdir()
        for it in (crates / crate / "src/tests").glob("*.rt"):
            (source / module / it.name).write_text(as_functions(it.read_text()))

def take_mains(crates, source):
    """Takes in what the mains of the programs call, which pass over one word more."""
    for crate, module in MAINS.items():
        text = (crates / crate / "src/main.rt").read_text()
        text = text[: text.index("fn main(")].replace("#![tactic(auto)]\n", "").replace("//!", "//").replace("given.skip(1)", "given.skip(2)")
        if "words_of(alloc, given)" in text:
            text = text.replace("words_of(alloc, given)", "words_of(alloc, behind(given))") + BEHIND
        (source / f"{module}.rt").write_text(re.sub(r"^fn run_program", "pub(crate) fn run_program", text, flags=re.M))

def combine(root):
    """Makes the crate layer_runs of a copy of the sources that program."""
    crates, source = root / "crates", root / "crates" / ROOT_CRATE / "src"
    arms = "\n".join(f'        "{"/".join(it)}" => {"::".join(it)}(rt),' for it in all_tests(crates))
    take_tests(crates, source)
    take_mains(crates, source)
    text = (source / "main.rt").read_text()
    text = text[: text.index("fn main(")]
    modules = "".join(f"mod {it};\n" for it in (*MAINS.values(), *TESTS.values(), "small"))
    text = text.replace("mod all_formulas;\n", "mod all_formulas;\n" + modules, 1)
    uses = "use std::process::{Abort, ExitCode};\nuse std::random::RandomSource;\nuse std::sync::Wait;\nuse std::{env, fs, io};"
    text = text.replace("use std::{env, fs, io};", uses)
    (source / "main.rt").write_text(text + MAIN % arms)
    lines = (root / "crates.txt").read_text().split("\n")
    below = {it.split(":")[0].split()[0]: it.split(":", 1)[1].split() for it in lines if ":" in it and not it.startswith("#")}
    wanted = dict.fromkeys([it for crate in (ROOT_CRATE, *MAINS, *TESTS) for it in below[crate]] + ["atom_join", "pd_model"])
    (root / "crates.txt").write_text("\n".join(f"{ROOT_CRATE} may_wait=99: {' '.join(wanted)}" if it.split(":")[0] == ROOT_CRATE else it for it in lines))
