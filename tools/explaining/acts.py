"""What `why` writes: acts and certificates, at which event each act was, and who holds what by them.

`why` gives acts numbers and no events. A trace has the events, and the rules say which acts an event adds: an `alloca` of some bytes takes
them from everyone and gives them to a module that asked; a `ret` takes those that it leaves; the end of a call takes the thread's stack and
ends its loans; and an action adds what its verb says. All else adds nothing. What an action moves is never on a stack where it is a transfer, so the
acts of all other events tell where those of the actions between them begin and end. Which of several actions next to each other added
an act follows from their verbs, and of a module's transfers from the certificates of their event. What is not told by that: of two actions
next to each other that the kernel copies by, the one under an `if` or both of lists, the first one gets all acts that it may have added."""
import re
from dataclasses import dataclass, field

WHO = r"(?:kernel|[a-z][a-z0-9_]*(?:\.shared|\.global|\[0x[0-9a-f]+\]))"
CAP = r"(?P<kind>write|call|ref \S+) (?P<low>0x[0-9a-f]+)(?:\+(?P<size>\d+))?"
ACT = re.compile(rf"act (?P<number>\d+) (?P<word>[a-z]+)(?: (?P<thread>\d+))?(?: (?P<who>{WHO}))?(?: {CAP})?(?: (?P<count>\d+))?$")
CERTIFICATE = re.compile(rf"(?P<event>\d+) (?P<thread>\d+) (?P<word>allow|keep|deny|borrowed) (?P<who>{WHO}) {CAP}(?P<rest>.*)$")
OPENING = -1


def cap_of(met):
    """A capability as (kind, first, end). A call and a reference are one atom."""
    low = int(met["low"], 16)
    return met["kind"], low, low + int(met["size"] or 1)


def cap_text(kind, low, high):
    return f"{kind} {low:#x}" + (f"+{high - low}" if kind == "write" else "")


@dataclass
class Act:
    number: int
    word: str
    thread: int
    who: str
    cap: tuple
    count: int
    event: int = OPENING

    def is_on_stack(self):
        return self.cap and self.cap[0] == "write" and self.cap[1] >= 0x3000000


@dataclass
class Certificate:
    event: int
    word: str
    who: str
    cap: tuple
    rest: str
    line: str


@dataclass
class Why:
    acts: list = field(default_factory=list)
    certificates: dict = field(default_factory=dict)

    def of(self, event):
        return self.certificates.get(event, [])


def why_of(text):
    """The acts and the certificates that a text of `why` tells."""
    why = Why()
    for line in text.split("\n"):
        act, certificate = ACT.match(line), CERTIFICATE.match(line)
        if act:
            cap = cap_of(act) if act["low"] else None
            numbers = [int(act[it]) if act[it] else None for it in ("thread", "count")]
            why.acts.append(Act(int(act["number"]), act["word"], numbers[0], act["who"], cap, numbers[1]))
        elif certificate:
            made = Certificate(int(certificate["event"]), certificate["word"], certificate["who"], cap_of(certificate), certificate["rest"], line)
            why.certificates.setdefault(made.event, []).append(made)
    return why


def opening_count(case):
    """How many acts are before the first event: what each module has from the start."""
    count = 0
    for text in case.modules.values():
        count += sum(2 if it.is_constant else 1 for it in text.globals if text.size(it.kind))
        count += len(text.functions) + sum(1 for it in text.declared if not it.startswith("llvm."))
    return count


class Placing:
    """Gives each act its event, from the first on."""

    def __init__(self, why, events, verbs):
        self.acts, self.why, self.events, self.verbs, self.at = why.acts, why, events, verbs, 0

    def next(self):
        return self.acts[self.at] if self.at < len(self.acts) else None

    def take(self, event, fits, most=1 << 40):
        """Gives the event acts as long as they fit, and returns how many."""
        begun = self.at
        while self.at - begun < most and self.next() and fits(self.next()):
            self.next().event = event.number
            self.at += 1
        return self.at - begun

    def run(self, opening):
        self.at = min(opening, len(self.acts))
        for event in self.events:
            self.event(event)
        return self.at == len(self.acts)

    def event(self, event):
        if event.kind != "done":
            self.take(event, lambda it: it.word == "strip" and it.is_on_stack(), 1)
            self.take(event, lambda it: it.word == "shutall", 1)
        elif event.word == "alloca":
            cap = ("write", event.address, event.address + event.size)
            self.take(event, lambda it: it.word == "strip" and it.cap == cap, 1)
            self.take(event, lambda it: it.word == "grant" and it.cap == cap and it.who == event.who, 1)
        elif event.word == "leaves":
            self.take(event, lambda it: it.word == "strip" and it.is_on_stack(), 1 if event.size else 0)
        elif event.word in ("pre", "post"):
            self.action(event)

    def action(self, event):
        verb, of, is_list = self.verbs(event)

        def gives(it):
            return it.word == "grant" and it.who == event.dest

        if verb in ("lend", None) and self.take(event, lambda it: it.word == "loan" and it.thread == event.thread, 1):
            self.take(event, lambda it: it.word == "lend" and it.who == event.dest)
        elif verb in ("end", None) and self.take(event, lambda it: it.word == "shut" and it.thread == event.thread, 1):
            return
        elif verb == "copy":
            self.take(event, lambda it: gives(it) and (is_list or it.cap[0].split()[0] == of), 1 << 40 if is_list else 1)
        elif verb in ("transfer", None):
            asked = [it for it in self.why.of(event.number) if it.cap[1] < it.cap[2]]
            most = len(asked) if event.source != "kernel" and verb else 1 if verb and not is_list else 1 << 40
            taken = self.take(event, lambda it: it.word == "strip" and not it.is_on_stack(), most)
            self.take(event, gives, taken if verb else 1 << 40)


class Holders:
    """Who holds atoms of a range of one kind, act by act."""

    def __init__(self, cap):
        self.kind, self.low, self.high = cap
        # (first, end, who, number of the act, loan)
        self.parts, self.loans = [], {}
        # the newest strip of some of it, and the newest loan of some of it that is over: the lend, and the act that ended it
        self.strip, self.over = None, None

    def cut(self, low, high, which=lambda part: True):
        """Takes a range out of the parts that a test meets."""
        kept = []
        for part in self.parts:
            if not which(part) or part[1] <= low or high <= part[0]:
                kept.append(part)
                continue
            kept += [(first, end, *part[2:]) for first, end in ((part[0], low), (high, part[1])) if first < end]
        self.parts = kept

    def perform(self, act):
        stack = self.loans.setdefault(act.thread, [])
        if act.word == "loan":
            stack.append(act.number)
        elif act.word in ("shut", "shutall"):
            left = max(0, len(stack) - act.count) if act.word == "shut" else 0
            over = [it for it in self.parts if it[4] in stack[left:]]
            if over:
                self.over = (max(it[3] for it in over), act.number)
                self.parts = [it for it in self.parts if it not in over]
            del stack[left:]
        elif act.cap and act.cap[0] == self.kind and act.cap[1] < self.high and self.low < act.cap[2]:
            low, high = max(act.cap[1], self.low), min(act.cap[2], self.high)
            if act.word == "strip":
                self.cut(low, high)
                self.strip = act
            else:
                loan = stack[-1] if act.word == "lend" and stack else None
                self.cut(low, high, lambda it: it[2] == act.who and it[4] == loan)
                self.parts.append((low, high, act.who, act.number, loan))

    def told(self):
        """The parts by their first atom, those side by side of one act as one."""
        found = []
        for part in sorted(self.parts, key=lambda it: (it[2], it[3], it[0])):
            if found and found[-1][2:] == part[2:] and found[-1][1] == part[0]:
                part = (found.pop()[0], *part[1:])
            found.append(part)
        return sorted(found, key=lambda it: it[:2])


def holders(acts, cap):
    made = Holders(cap)
    for act in acts:
        made.perform(act)
    return made
