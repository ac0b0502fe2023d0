"""The engines in the order in which they are begun: the one table of what is run when."""
import collections

import certificates
from nevers import Never, NeverSearch
from planners import Planner
from race import Race
from sat import Sat
from states import Search

# An engine: its name; what makes it; the seconds after which it may begin, if there is no answer by then; the seconds of its
# first turn, where others wait (each later turn is twice as long); its share of the time beside others; how many of its strands
# may run at once; the share of memory that one of its programs may have; its words; what it needs.
Row = collections.namedtuple("Row", "name maker after turn weight most memory words needs")

# The seconds are those of bench/time/solve-corpus: on 48 tasks of a corpus, 10 seconds each on one busy processor, `plan growing` had 29 of
# its 31 answers within a second, `plan each` all of its 26, and `sat` 14 of its 27. So an easy task has its answer before a heavy engine begins.
ROWS = [
    Row("never", Never, 0.0, 2.0, 1, 1, 0.2, [], "never"),
    Row("search greedy", Search, 0.0, 2.0, 2, 1, 0.3, ["--how", "greedy"], "search"),
    Row("plan growing", Race, 0.0, 2.0, 2, 1, 0.2, [], "plan"),
    Row("planner", Planner, 0.0, 2.0, 1, 1, 0.4, [], "planner"),
    Row("search least", Search, 0.5, 1.0, 1, 1, 0.3, ["--how", "least"], "search"),
    Row("plan each", Race, 0.5, 1.0, 1, 1, 0.2, ["--growth", "101"], "plan"),
    Row("sat", Sat, 1.0, 2.0, 2, 64, 0.3, [], "solver"),
    Row("never-search", NeverSearch, 1.0, 2.0, 1, 1, 0.2, [], "never-search"),
    Row("glpk", certificates.Glpk, 1.0, 2.0, 1, 1, 0.2, [], "glpk"),
    Row("abc", certificates.Abc, 2.0, 2.0, 1, 1, 0.2, [], "abc"),
]


def made(call, there, chosen):
    """The engines that are to run: those that are there, and chosen where a choice is made."""
    found = []
    for row in ROWS:
        if row.needs not in there or chosen and row.name.replace(" ", "-") not in chosen:
            continue
        if row.needs in certificates.NAMED:
            found.append(row.maker(call, row, [certificates.found(row.needs, call.path)], certificates.prover(call, call.solver_name)))
        else:
            found.append(row.maker(call, row, call.solver_name) if row.maker is Sat else row.maker(call, row))
    return found
