"""An exhaustive search: each state that some interleaving reaches, and the shortest run to each break of a rule."""


class Found:
    """What a search has found: how many states there are, and of each rule that breaks a state in which it does."""

    def __init__(self):
        self.states = 0
        self.breaks = {}
        self.reached_by = {}

    def run_to(self, state):
        """The names of the steps that lead to a state, each with the state behind it."""
        steps = []
        while self.reached_by[state] is not None:
            before, name = self.reached_by[state]
            steps.append((name, state))
            state = before
        return reversed(steps)


def explore(model, first_break_only=False):
    """Searches all that a model can do, breadth first.

    `model.steps(state)` gives the steps of a state: name, whether it is a wake for no reason, and the state behind it.
    `model.RULES` has what must hold of each state, by name; `model.is_done(state)` says whether nothing is left to do.
    """
    found = Found()
    start = model.start()
    found.reached_by[start] = None
    order = [start]
    leads_to = {}
    for state in order:  # `order` grows
        steps = list(model.steps(state))
        leads_to[state] = {after for _, _, after in steps}
        if all(is_spurious for _, is_spurious, _ in steps) and not model.is_done(state):
            found.breaks.setdefault("gets on", state)
        for rule, holds in model.RULES.items():
            if not holds(model, state):
                found.breaks.setdefault(rule, state)
        if first_break_only and found.breaks:
            break
        for name, _, after in steps:
            if after not in found.reached_by:
                found.reached_by[after] = (state, name)
                order.append(after)
    found.states = len(order)
    if not found.breaks:
        circle = state_on_a_circle(leads_to)
        if circle is not None:
            found.breaks["ends"] = circle
    return found


def state_on_a_circle(leads_to):
    """A state from which some run comes back to it; None where there is none."""
    entries = {}
    for state, followers in leads_to.items():
        entries.setdefault(state, 0)
        for after in followers:
            entries[after] = entries.get(after, 0) + 1
    free = [state for state, count in entries.items() if count == 0]
    left = len(entries)
    while free:
        left -= 1
        for after in leads_to[free.pop()]:
            entries[after] -= 1
            if entries[after] == 0:
                free.append(after)
    return next((state for state, count in entries.items() if count > 0), None) if left else None
