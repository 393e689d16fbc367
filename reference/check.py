"""Why a transcript is refused, and what is asked of a legal one: FORMATS, What is reported of a transcript and The
graph of a transcript."""
from typing import Dict, List, Optional, Set, Tuple

from reference.play import Seed
from reference.program import Program, State
from reference.derive import height_of
from reference.steps import Machine, Offer
from reference.terms import Node, instance
from reference.texts import Texts
from reference.transcript import MOST_LOG, Listing, LogReader, Step, Unread, log_text


class Checked:
    """A transcript that is checked, in the order of the table of causes; a cause is raised as `Unread`."""

    def __init__(self, program: Program, text: str, most_work: int) -> None:
        self.program = program
        self.log = LogReader(program, text).log()
        self.machine = Machine(program, self.log.height, most_work)
        self.texts = Texts(program)
        self.stage, self.state = program.stage, program.state
        self.states: List[State] = []
        if self.log.stage != program.stage:
            said, wanted = program.stages[self.log.stage], program.stages[program.stage]
            raise Unread(self.log.start.line, f"StartStage said {said} is {wanted}")
        self.compare("StartState", self.log.start, self.state)
        for step in self.log.steps:
            self.step(step)
        self.end()

    def compare(self, cause: str, said: Listing, state: State) -> None:
        """The first atom in the order of atoms of which two numbers differ; 0 stands for one that is not there."""
        differ = [atom for atom in {**said.state, **state} if said.state.get(atom, 0) != state.get(atom, 0)]
        if differ:
            atom = min(differ)
            said_of, is_of = said.state.get(atom, 0), state.get(atom, 0)
            raise Unread(said.line, f"{cause} said {said_of} is {is_of} {self.texts.atom(atom)}")

    def step(self, step: Step) -> None:
        """The causes of a step."""
        rule = self.program.rules[step.offer.rule]
        if rule.group // 2 != self.stage:
            raise Unread(step.line, f"OtherStage {rule.name}")
        self.check_contained(step)
        self.check_proofs(step)
        if rule.leads is not None:
            self.check_quiet(step.line, self.machine.offers(self.state, 2 * self.stage))
        passed = self.machine.passed(self.state, step.offer)
        if passed:
            raise Unread(step.line, f"OverLimit {passed}")
        if rule.leads is not None and step.stage is not None and step.stage != rule.leads:
            said, wanted = self.program.stages[step.stage], self.program.stages[rule.leads]
            raise Unread(step.line, f"StageLine said {said} is {wanted}")
        self.stage = self.machine.next_stage(self.stage, step.offer)
        self.state = self.machine.after(self.state, step.offer)
        self.states.append(self.state)
        if step.middle:
            self.compare("MidState", step.middle, self.state)

    def check_contained(self, step: Step) -> None:
        """NotContained: what the step takes is not there."""
        left = self.machine.left(step.offer)
        lacking = [atom for atom, need in left.items() if need > self.state.get(atom, 0)]
        if lacking:
            atom = min(lacking)
            have, need = self.state.get(atom, 0), left[atom]
            raise Unread(step.line, f"NotContained have {have} need {need} {self.texts.atom(atom)}")

    def check_proofs(self, step: Step) -> None:
        """NotProved, and TooHigh, for each backward premise in order."""
        for number, (proof, atom) in enumerate(zip(step.proofs, self.machine.asked_atoms(step.offer)), 1):
            if not self.machine.backward.proves(proof, atom):
                raise Unread(step.line, f"NotProved {number}")
            if height_of(proof) > self.log.height:
                raise Unread(step.line, f"TooHigh {number} {height_of(proof)}")

    def check_quiet(self, line: int, offers: List[Offer]) -> None:
        """NotQuiet: this offer, the first, is there."""
        if offers:
            raise Unread(line, f"NotQuiet {self.texts.offer(offers[0])}")

    def end(self) -> None:
        """The causes of the end."""
        if self.log.end is None:
            raise Unread(self.log.after, "NotEnded")
        if self.log.word == "quiet":
            self.check_quiet(self.log.end.line, self.machine.asked(self.stage, self.state)[1])
        self.compare("EndState", self.log.end, self.state)

    def renewed(self) -> Tuple[str, int]:
        """FORMATS, What is reported of a transcript: the same in version 2, without the conversation."""
        return within(log_text(self.program, self.log, self.log.steps, self.states))


def within(text: str) -> Tuple[str, int]:
    """A new transcript, unless it is too long."""
    return (text, 0) if len(text) <= MOST_LOG else ("refused 0 NewTooLong\n", 1)


class Graph:
    """FORMATS, The graph of a transcript: which tokens each step uses, removes and makes, and on which earlier steps it
    rests."""

    def __init__(self, checked: Checked) -> None:
        self.checked, self.program = checked, checked.program
        self.tokens: Dict[int, Node] = {}
        self.count = 0
        for atom, copies in sorted(checked.log.start.state.items()):
            for _ in range(copies):
                self.make(atom)
        self.touched = [self.touch(step) for step in checked.log.steps]

    def make(self, atom: Node) -> Set[int]:
        """A token for a further copy, unless it is a fact that is there."""
        if self.program.is_fact(atom) and atom in self.tokens.values():
            return set()
        self.count += 1
        self.tokens[self.count] = atom
        return {self.count}

    def touch(self, step: Step) -> Tuple[Set[int], Set[int], Set[int]]:
        """The tokens that a step uses, removes and makes."""
        rule = self.program.rules[step.offer.rule]
        used: Set[int] = set()
        removed: Set[int] = set()
        for premise, kept in zip(rule.premises, rule.kept):
            atom = instance(premise, step.offer.values)
            token = min(number for number, held in self.tokens.items()
                        if held == atom and (number not in used or self.program.is_fact(atom)))
            used.add(token)
            removed |= set() if kept else {token}
        for token in removed:
            del self.tokens[token]
        made: Set[int] = set()
        for atom in self.checked.machine.made(step.offer):
            made |= self.make(atom)
        return used, removed, made

    def is_barrier(self, step: int) -> bool:
        """A step that leaves its stage is a barrier."""
        return self.checked.log.steps[step].stage is not None

    def rests_on(self, later: int, earlier: int) -> bool:
        """Whether a step uses a token that an earlier one made, or removes one that the earlier used."""
        (used, removed, _), (used_before, _, made_before) = self.touched[later], self.touched[earlier]
        return bool(used & made_before or removed & used_before)

    def lines(self) -> List[str]:
        """The lines of `cause`."""
        found = []
        for step in range(len(self.touched)):
            after = [str(earlier + 1) for earlier in range(step) if self.rests_on(step, earlier)]
            words = ["all"] * self.is_barrier(step) + ["after"] * bool(after) + after
            found.append(" ".join([f"step {step + 1}"] + words))
        return found

    def order(self, seed: int) -> List[int]:
        """One of the steps that wait for none, again and again: of several the one that the next word of the seed
        stands for."""
        drawn, order = Seed(seed), []
        waits = {step: {earlier for earlier in range(step) if self.is_barrier(step) or self.is_barrier(earlier)
                        or self.rests_on(step, earlier)} for step in range(len(self.touched))}
        while waits:
            ready = [step for step, before in sorted(waits.items()) if not before]
            taken = ready[drawn.place(len(ready))]
            order.append(taken)
            del waits[taken]
            for before in waits.values():
                before.discard(taken)
        return order

    def again(self, seed: int) -> Tuple[str, int]:
        """What `again` writes: the transcript in this order, or the first step of it that leads to a state over a
        limit."""
        log, machine = self.checked.log, self.checked.machine
        steps = [log.steps[step] for step in self.order(seed)]
        states: List[State] = []
        for number, step in enumerate(steps, 1):
            state = states[-1] if states else log.start.state
            if machine.passed(state, step.offer):
                return f"unfit {number}\n", 5
            states.append(machine.after(state, step.offer))
        return within(log_text(self.program, log, steps, states))


def checked_or_line(program: Program, text: str, most_work: int) -> Tuple[Optional[Checked], str]:
    """A legal transcript, or the line that says why it is none."""
    try:
        return Checked(program, text, most_work), ""
    except Unread as cause:
        return None, cause.text + "\n"
