"""The planner as an engine of Unified Planning (https://unified-planning.readthedocs.io), over its PDDLPlanner.

It was written by that project's documentation and not run here. The command dokyreva has to be on the PATH:

    env = unified_planning.shortcuts.get_environment()
    env.factory.add_engine("dokyreva", "up_dokyreva", "Dokyreva")
    with unified_planning.shortcuts.OneshotPlanner(name="dokyreva") as planner:
        print(planner.solve(problem))
"""
from unified_planning.engines import PlanGenerationResultStatus as Status
from unified_planning.engines.pddl_planner import PDDLPlanner
from unified_planning.model import ProblemKind

STATUSES = {
    0: Status.SOLVED_SATISFICING,
    1: Status.UNSOLVABLE_INCOMPLETELY,  # refuted up to a horizon: it never says that no plan of any length exists
    2: Status.TIMEOUT,
    3: Status.UNSUPPORTED_PROBLEM,
    4: Status.UNSUPPORTED_PROBLEM,
    8: Status.MEMOUT,
    124: Status.TIMEOUT,
}


class Dokyreva(PDDLPlanner):
    """One call of dokyreva plan, whose plan is read from the file that it writes."""

    @property
    def name(self):
        """The name under which it is registered."""
        return "dokyreva"

    def _get_cmd(self, domain_filename, problem_filename, plan_filename):
        """The words of the call."""
        return ["dokyreva", "plan", domain_filename, problem_filename, "--plan-file", plan_filename]

    def _result_status(self, problem, plan, retval=None, log_messages=None):
        """What the exit status says."""
        return STATUSES.get(retval, Status.INTERNAL_ERROR)

    @staticmethod
    def supported_kind():
        """Which problems it takes."""
        kind = ProblemKind()
        kind.set_problem_class("ACTION_BASED")
        for typing in ("FLAT_TYPING", "HIERARCHICAL_TYPING"):
            kind.set_typing(typing)
        for condition in ("NEGATIVE_CONDITIONS", "EQUALITIES"):
            kind.set_conditions_kind(condition)
        for effect in ("CONDITIONAL_EFFECTS", "FORALL_EFFECTS"):
            kind.set_effects_kind(effect)
        return kind

    @staticmethod
    def supports(problem_kind):
        """Whether it takes a problem of this kind."""
        return problem_kind <= Dokyreva.supported_kind()
