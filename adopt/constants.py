"""Sparse conditional constant propagation: which values are always the same number, and which blocks control can come to.

After Wegman and Zadeck, "Constant Propagation with Conditional Branches" (1991). A load is a number where its address is one and
neither push nor pop writes there.
"""

from typing import Callable

from .ir import Flow, Procedure, Value, compared, computed, constant

# What a value can be: not yet known, a number, or different numbers.
VARIES = -1
Load = Callable[[int, int], int | None]


class Constants:
    """The numbers of a procedure."""

    def __init__(self, procedure: Procedure, load: Load) -> None:
        self.procedure, self.load = procedure, load
        self.found: dict[Value, int] = {}
        self.users: dict[Value, list[tuple[Flow, Value | None]]] = {}
        self.edges: set[tuple[int, int]] = set()
        self.reached: set[int] = set()
        self.blocks: list[tuple[int, int]] = [(-1, 0)]
        self.changed: list[Value] = []

    def run(self) -> "Constants":
        self.find_users()
        while self.blocks or self.changed:
            if self.blocks:
                self.enter(*self.blocks.pop())
            else:
                for flow, user in self.users.get(self.changed.pop(), []):
                    if flow.number in self.reached:
                        self.visit_end(flow) if user is None else self.visit(flow, user)
        return self

    def find_users(self) -> None:
        for flow in self.procedure.flows.values():
            for value in flow.phis + flow.values:
                for used in value.args:
                    self.users.setdefault(used, []).append((flow, value))
            for used in flow.roots():
                self.users.setdefault(used, []).append((flow, None))

    def enter(self, before: int, number: int) -> None:
        """Control comes along an edge."""
        if (before, number) in self.edges:
            return
        self.edges.add((before, number))
        flow = self.procedure.flows[number]
        for phi in flow.phis:
            self.visit(flow, phi)
        if number in self.reached:
            return
        self.reached.add(number)
        for value in flow.values:
            self.visit(flow, value)
        self.visit_end(flow)

    def value_of(self, value: Value) -> int | None:
        """The number of a value, VARIES, or None where nothing is known yet."""
        if value.is_number:
            return value.number
        if value.op in ("undef", "argument"):
            return VARIES
        return self.found.get(value)

    def visit(self, flow: Flow, value: Value) -> None:
        old = self.found.get(value)
        new = self.of_phi(flow, value) if value.op == "phi" else self.of_value(value)
        if new is None or new == old or old == VARIES:
            return
        self.found[value] = new if old is None else VARIES
        self.changed.append(value)

    def of_phi(self, flow: Flow, value: Value) -> int | None:
        known: set[int] = set()
        for before, arg in zip(flow.predecessors, value.args):
            number = self.value_of(arg) if (before, flow.number) in self.edges else None
            if number is not None and arg.op != "undef":
                known.add(number)
            elif number is not None:
                known.add(VARIES)
        if not known:
            return None
        return next(iter(known)) if len(known) == 1 else VARIES

    def of_value(self, value: Value) -> int | None:
        numbers = [self.value_of(it) for it in value.args]
        if value.op == "load":
            address = numbers[0]
            if address is None or address == VARIES:
                return address
            loaded = self.load(address, value.bits // 8)
            return VARIES if loaded is None else loaded
        special = self.special(value, numbers)
        if special is not None:
            return special
        if any(it is None for it in numbers):
            return None
        if VARIES in numbers or not numbers:
            return VARIES
        made = computed(value.op, [it for it in numbers if it is not None], value.bits, value.args[0].bits, value.number, value.name)
        return VARIES if made is None else made

    @staticmethod
    def special(value: Value, numbers: list[int | None]) -> int | None:
        """Operations that are numbers though an operand is none."""
        if value.op == "and" and 0 in numbers:
            return 0
        if value.op == "mul" and value.number == 0:
            return 0
        if value.op == "select" and numbers[0] not in (None, VARIES):
            return numbers[1] if numbers[0] else numbers[2]
        if value.op == "select" and numbers[1] == numbers[2] and numbers[1] is not None:
            return numbers[1]
        if value.op in ("cmp", "sub", "xor") and value.args[0] is value.args[1]:
            return int(compared(value.name, 0, 0, 64)) if value.op == "cmp" else 0
        return None

    def visit_end(self, flow: Flow) -> None:
        if flow.end != "branch" or flow.condition is None:
            self.blocks += [(flow.number, it) for it in flow.successors]
            return
        number = self.value_of(flow.condition)
        if number == VARIES:
            self.blocks += [(flow.number, it) for it in flow.successors]
        elif number is not None:
            self.blocks.append((flow.number, flow.successors[0 if number else 1]))

    def rewrite(self) -> None:
        """Takes away what control does not come to, and writes numbers for values that are always the same."""
        flows = self.procedure.flows
        for number in [it for it in flows if it not in self.reached]:
            del flows[number]
        for flow in flows.values():
            if flow.end == "branch":
                taken = [it for it in flow.successors if (flow.number, it) in self.edges]
                if len(set(taken)) == 1 and len(taken) == 1:
                    flow.successors, flow.end, flow.condition = taken, "jump", None
            kept = [at for at, it in enumerate(flow.predecessors) if (it, flow.number) in self.edges]
            for phi in flow.phis:
                phi.args = [phi.args[at] for at in kept]
            flow.predecessors = [flow.predecessors[at] for at in kept]
        made = {it: constant(number, it.bits) for it, number in self.found.items() if number != VARIES}
        self.procedure.replace(lambda it: made.get(it, it))
        for flow in flows.values():
            flow.phis = [it for it in flow.phis if it not in made]
            flow.values = [it for it in flow.values if it not in made]
