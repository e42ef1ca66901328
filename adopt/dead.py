"""Takes away branches that decide nothing: what they lead to differs in nothing that is read. Delay loops go so.

After Cytron and others, "Efficiently Computing Static Single Assignment Form and the Control Dependence Graph" (1991), section 7.1. A loop
that has no effect and whose values nothing reads is taken to end.
"""

from .ir import EFFECTS, Flow, Procedure, Value

EXIT = -1


class DeadBranches:
    """Finds what is live from effects and answers, and turns other branches into jumps."""

    def __init__(self, procedure: Procedure) -> None:
        self.procedure, self.flows = procedure, procedure.flows
        self.later = post_dominators(self.flows)
        self.live: set[Value] = set()
        self.live_blocks: set[int] = set()
        self.live_ends: set[int] = set()
        self.waiting: list[Value] = []
        self.decides = self.control()

    def control(self) -> dict[int, set[int]]:
        """Of each block the branches that decide whether control comes to it."""
        found: dict[int, set[int]] = {it: set() for it in self.flows}
        for number, flow in self.flows.items():
            if len(set(flow.successors)) < 2:
                continue
            for successor in set(flow.successors):
                for block in self.later[successor]:
                    if block in found and (block == number or block not in self.later[number]):
                        found[block].add(number)
        return found

    def run(self) -> bool:
        """True where a branch went away."""
        for flow in self.flows.values():
            if any(it.op in EFFECTS and it.op != "pause" for it in flow.values) or flow.end not in ("jump", "branch"):
                self.mark_block(flow.number)
            self.waiting += [it for it in flow.values if it.op in EFFECTS and it.op != "pause"]
            if flow.end != "branch":
                self.waiting += list(flow.roots())
        while self.waiting:
            self.mark(self.waiting.pop())
        return self.cut()

    def mark(self, value: Value) -> None:
        if value in self.live:
            return
        self.live.add(value)
        self.waiting += value.args
        if value.block in self.flows:
            self.mark_block(value.block)
        if value.op == "phi":
            for number in self.flows[value.block].predecessors:
                self.mark_block(number)

    def mark_block(self, number: int) -> None:
        """What decides whether control comes here matters."""
        if number in self.live_blocks:
            return
        self.live_blocks.add(number)
        for branch in self.decides[number]:
            if branch not in self.live_ends:
                self.live_ends.add(branch)
                self.waiting += list(self.flows[branch].roots())
                self.mark_block(branch)

    def cut(self) -> bool:
        """Leads dead branches to the next block that matters."""
        changed = False
        for number, flow in self.flows.items():
            if flow.end == "branch" and number not in self.live_ends:
                target = self.next_live(number)
                if target is None:
                    continue
                if any(it in self.live for it in self.flows[target].phis) and number not in self.flows[target].predecessors:
                    continue
                self.lead(flow, target)
                changed = True
        return changed

    def next_live(self, number: int) -> int | None:
        """The nearest block that control comes to in any case."""
        after = [it for it in self.later[number] if it not in (number, EXIT)]
        return max(after, key=lambda it: len(self.later[it])) if after else None

    def lead(self, flow: Flow, target: int) -> None:
        source = flow.source
        self.procedure.note("dropped", source, "a branch, or a loop, that decides nothing but how long it takes")
        for successor in flow.successors:
            other = self.flows[successor]
            if successor != target and flow.number in other.predecessors:
                forget_edge(other, flow.number)
        if flow.number not in self.flows[target].predecessors:
            self.flows[target].predecessors.append(flow.number)
            for phi in self.flows[target].phis:
                phi.args.append(Value("undef", [], phi.bits, name="a value that nothing reads"))
        flow.successors, flow.end, flow.condition = [target], "jump", None


def forget_edge(flow: Flow, before: int) -> None:
    """Takes an edge, and what phis have for it, away."""
    while before in flow.predecessors:
        at = flow.predecessors.index(before)
        del flow.predecessors[at]
        for phi in flow.phis:
            del phi.args[at]


def post_dominators(flows: dict[int, Flow]) -> dict[int, set[int]]:
    """Of each block those that control comes to from it in any case, itself too."""
    everything = set(flows) | {EXIT}
    found = {it: set(everything) for it in flows}
    found[EXIT] = {EXIT}
    changed = True
    while changed:
        changed = False
        for number in sorted(flows, reverse=True):
            following = flows[number].successors or [EXIT]
            made = set.intersection(*(found[it] for it in following)) | {number}
            if made != found[number]:
                found[number], changed = made, True
    return found
