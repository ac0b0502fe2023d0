"""What is known of a task: what a proved program has accepted, and nothing else."""
import collections

# A plan: its calls, its lines as they are printed, its number of steps (None where it is a sequence), which engine found it, and
# the word that accepted it.
Plan = collections.namedtuple("Plan", "calls lines steps engine word")

# What is asked for: the least number of `steps` or of `actions`, or any plan; at most so many steps or actions.
Wish = collections.namedtuple("Wish", "least steps actions")

MOST = 255


def sentence(number, noun):
    """A number with its noun."""
    return f"{number} {noun}" + ("" if number == 1 else "s")


class Known:
    """The bounds, the plans, and whether there is none at all."""

    def __init__(self, wish, kind="exists"):
        self.wish, self.kind = wish, kind
        self.refuted, self.refuted_line, self.refuted_word = -1, None, None
        self.few_steps, self.few_actions = None, None
        self.least_actions = None
        self.never, self.never_word = None, None
        self.states = 0
        self.limits = {}

    def refute(self, horizon, line, word):
        """A horizon is refuted, by a line of a proved program."""
        if horizon > self.refuted:
            self.refuted, self.refuted_line, self.refuted_word = horizon, line, word

    def add(self, plan):
        """A plan that was accepted."""
        if self.few_actions is None or len(plan.calls) < len(self.few_actions.calls):
            self.few_actions = plan
        if self.few_steps is None or steps_of(plan) < steps_of(self.few_steps):
            self.few_steps = plan

    def none(self, line, word):
        """No plan of any length, by a line of a proved program."""
        self.never, self.never_word = line, word

    def shortest(self, actions, word):
        """No plan has fewer actions."""
        self.least_actions = actions, word

    def forget(self):
        """The plans are none of the files as they are."""
        self.few_steps, self.few_actions, self.least_actions = None, None, None

    def plan(self):
        """The plan that is to be printed: one that is within what is asked for, if there is one."""
        it = self.few_actions if self.wish.least == "actions" or self.wish.actions is not None else self.few_steps
        return it if it and self.is_within(it) else None

    def is_within(self, plan):
        """It has at most so many steps and actions as were asked for."""
        return not (self.wish.steps is not None and steps_of(plan) > self.wish.steps or
                    self.wish.actions is not None and len(plan.calls) > self.wish.actions)

    def upper(self):
        """The least number of steps of a known plan; None where none is known."""
        return steps_of(self.few_steps) if self.few_steps else None

    def last(self):
        """The last horizon that may tell something."""
        most = min(MOST, *(it for it in (self.wish.steps, self.wish.actions) if it is not None), MOST)
        return most if self.upper() is None else min(most, self.upper() - 1)

    def fewest(self):
        """No plan has fewer actions than this; None where that is not known of the plan's number."""
        if not self.few_actions:
            return None
        count = len(self.few_actions.calls)
        if self.refuted >= count - 1 or self.least_actions and self.least_actions[0] == count:
            return count
        return None

    def is_least(self):
        """The plan is the least one that was asked for."""
        if self.wish.least == "steps":
            return self.upper() is not None and self.refuted >= self.upper() - 1
        return self.wish.least != "actions" or self.fewest() is not None

    def none_within(self):
        """No plan is within what was asked for."""
        if self.never:
            return True
        bounds = [it for it in (self.wish.steps, self.wish.actions) if it is not None]
        if bounds and self.refuted >= min(bounds):
            return True
        return self.wish.actions is not None and self.fewest() is not None and self.fewest() > self.wish.actions

    def is_over(self):
        """What was asked for is answered."""
        return self.none_within() or self.plan() is not None and self.is_least()


def steps_of(plan):
    """The steps of a plan; of a sequence each action is one."""
    return len(plan.calls) if plan.steps is None else plan.steps
