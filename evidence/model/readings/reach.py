"""The upper bound of what a search may visit, and where it revisits itself. More can be required of a search in which no alias takes part in
resolving itself and no symbol is visited with two different remaining parts."""
from readings.relations import Relations


class Reach:
    """The symbols that a search may visit, with the parts after them. `has_alias`: an alias whose name is known is visited; `meets_itself`: one is
    visited within its own search; `has_two_rests`: a symbol is visited with two different remaining parts."""

    def __init__(self, relations: Relations, module, symbol, parts):
        self.relations = relations
        self.has_alias = self.meets_itself = self.has_two_rests = False
        self.search(module, symbol, parts, frozenset())

    def search(self, module, symbol, parts, resolving) -> None:
        rests, seen, waiting = {}, set(), [(module, symbol, parts)]
        while waiting:
            goal = waiting.pop()
            if goal in seen:
                continue
            seen.add(goal)
            if rests.setdefault(goal[:2], goal[2]) != goal[2]:
                self.has_two_rests = True
            for place in range(len(self.relations.declarations(*goal[:2]))):
                waiting += self.following(*goal, place, resolving)

    def following(self, module, symbol, parts, place, resolving) -> list:
        declaration = self.relations.declarations(module, symbol)[place]
        leaves, goals = self.relations.leads(module, symbol, place)
        if declaration.kind == 'qualified':
            leaves = self.alias(goals[0], (module, symbol, place), resolving) if goals else []
            goals = []
        elif not declaration.is_end():
            leaves = []
        outcomes = [self.relations.outcome(leaf, parts)[1] for leaf in leaves] if parts else []
        return [(target, number, parts) for target, number, _ in goals] + [goal for goal in outcomes if goal is not None]

    def alias(self, goal, key, resolving):
        """Returns the leaves of an alias, whose search is within this one."""
        self.has_alias = True
        if key in resolving:
            self.meets_itself = True
            return []
        self.search(*goal, resolving | {key})
        return self.relations.leaves(*goal)
