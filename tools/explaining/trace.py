"""A trace: the events of a run, the calls that they stand in, and what is at an address at one of them."""
import re
from dataclasses import dataclass, field

from .case import HEAP, REGION, STACK, STACKS, plural

LINE = re.compile(r"(done|refused|trap|ends) (\d+) (\d+)\.(\d+) (\S+) (script|[^ ]+:\d+): (.*)$")
OUTCOME = re.compile(r": ((?:refused|trap) .*|returned.*|budget)$")
ENTERS = re.compile(r"(.*) enters (\S+) as (\S+)$")
ACTION = re.compile(r"(pre|post) (\d+) of (\S+) from (\S+) to (\S+)$")
ROOM = re.compile(r"(alloca|leaves) (\d+) at (0x[0-9a-f]+)\b")
BYTES = {"i1": 1, "i8": 1, "i16": 2, "i32": 4, "i64": 8}


@dataclass
class Event:
    line: str
    kind: str
    number: int
    thread: int
    call: int
    who: str
    # the function that asks, as `m:f`, and the line of its text; none of a script
    function: str
    at: int
    what: str
    outcome: str
    word: str = ""
    size: int = 0
    address: int = None
    enters: str = None
    enters_as: str = None
    # of an action: its number, whose it is, who gives and who gets
    index: int = None
    of: str = None
    source: str = None
    dest: str = None

    def details(self):
        self.word = self.what.split(" ")[0]
        room, action, enters = ROOM.match(self.what), ACTION.match(self.what), ENTERS.match(self.what)
        if room:
            self.size, self.address = int(room[2]), int(room[3], 16)
        elif action:
            self.index, self.of, self.source, self.dest = int(action[2]), action[3], action[4], action[5]
        elif enters:
            self.enters, self.enters_as = enters[2], enters[3]
        return self

    def module(self):
        """The text that asks: a module, `kernel`, or nothing."""
        return self.function.split(":")[0] if self.function else None

    def touches(self):
        """The (first, end, whether it writes) of what a load, a store or a block write is of."""
        access = re.match(r"(load|store) (i\d+)(?: \S+)? at (0x[0-9a-f]+)", self.what)
        block = re.match(r"copy (\d+) from (0x[0-9a-f]+)(?: \([^)]*\))? to (0x[0-9a-f]+)", self.what)
        filled = re.match(r"fill (\d+) with \d+ at (0x[0-9a-f]+)", self.what)
        zeroed = re.match(r"calls k\.zero\((0x[0-9a-f]+), (0x[0-9a-f]+)\)", self.what)
        found = []
        if access:
            found.append((int(access[3], 16), BYTES[access[2]], access[1] == "store"))
        elif block:
            found += [(int(block[2], 16), int(block[1]), False), (int(block[3], 16), int(block[1]), True)]
        elif filled:
            found.append((int(filled[2], 16), int(filled[1]), True))
        elif zeroed:
            found.append((int(zeroed[1], 16), int(zeroed[2], 16), True))
        return [(at, at + size, writes) for at, size, writes in found]

    def crosses(self):
        """Whether a call goes from the kernel into a module, or out of it."""
        return bool(self.enters) and (self.enters_as == "kernel") != (self.who == "kernel")


def event_of(line):
    met = LINE.match(line)
    if not met:
        return None
    kind, number, thread, call, who, place, rest = met.groups()
    outcome = OUTCOME.search(rest) if kind != "done" else None
    what = rest[: outcome.start()] if outcome else rest
    function, _, at = place.rpartition(":")
    made = Event(line, kind, int(number), int(thread), int(call), who, function or None, int(at) if function else None, what, outcome[1] if outcome else "")
    return made.details()


def events_of(text):
    return [it for it in map(event_of, text.split("\n")) if it]


@dataclass
class Frame:
    """A call: of which function, for whom, from which event to which, and how deep it stands."""
    function: str
    who: str
    begin: int
    thread: int
    call: int
    depth: int
    # the event that entered it; none where a function of the same text calls, which is no event
    entered: int
    end: int = None
    below: "Frame" = field(default=None, repr=False)


def frames_of(events):
    """The calls of a run. A call inside of one text is no event: it is seen by its first one. So one that has none but its `ret` is short,
    and one of a function by itself is not told from the call around it."""
    found, stacks, left = [], {}, {}
    for event in events:
        stack = stacks.setdefault(event.thread, [])
        if event.kind != "done":
            while stack:
                stack.pop().end = event.number
            continue
        if event.word in ("pre", "post"):
            # an action stands in the line of the call: those behind the body still belong to it
            last = left.get(event.thread)
            if event.word == "post" and last and last.function == event.of:
                last.end = event.number
            continue
        if event.function and (not stack or stack[-1].function != event.function):
            who = event.who
            stack.append(Frame(event.function, who, event.number, event.thread, event.call, len(stack), None, None, stack[-1] if stack else None))
            found.append(stack[-1])
        if event.enters:
            stack.append(Frame(event.enters, event.enters_as, event.number, event.thread, event.call, len(stack), event.number, None, stack[-1] if stack else None))
            found.append(stack[-1])
        elif event.word == "leaves" and stack:
            left[event.thread] = stack.pop()
            left[event.thread].end = event.number
    for stack in stacks.values():
        for frame in stack:
            frame.end = events[-1].number
    return found


def around(frames, event):
    """The calls in which an event stands, the innermost first."""
    found = [it for it in frames if it.thread == event.thread and it.begin <= event.number <= it.end and it.begin != event.number]
    found += [it for it in frames if it.thread == event.thread and it.begin == event.number and it.entered is None]
    return sorted(found, key=lambda it: -it.depth)


class Places:
    """What is at an address, by the allocations of a trace."""

    def __init__(self, case, events, frames):
        self.case, self.events, self.frames = case, events, frames

    def at(self, address, number):
        """What is at an address before the event with this number."""
        if HEAP <= address < HEAP + REGION:
            return self.in_heap(address, number)
        if STACKS <= address < STACKS + 16 * STACK:
            return self.in_stack(address, number)
        return self.case.name_of(address)

    def blocks(self, number):
        """The blocks of the heap: of each the event that gave it, its size, and the event that took it back."""
        found = {}
        for event in self.events[:number]:
            gave = re.match(r"calls k\.alloc\((0x[0-9a-f]+)\) = (0x[0-9a-f]+)\b", event.what)
            took = re.match(r"calls k\.free\((0x[0-9a-f]+)\)", event.what)
            if gave and int(gave[2], 16):
                found[int(gave[2], 16)] = (event, int(gave[1], 16), None)
            elif took and int(took[1], 16) in found:
                found[int(took[1], 16)] = (*found[int(took[1], 16)][:2], event)
        return found

    def in_heap(self, address, number):
        found = [(begin, *it) for begin, it in self.blocks(number).items() if begin <= address]
        if not found:
            return "in the heap, before its first block"
        begin, gave, size, took = max(found, key=lambda it: it[0])
        block = f"the block {begin:#x}+{size} that {self.asker(gave)} got at event {gave.number}"
        over = address - begin - size
        freed = f", which event {took.number} gave back" if took else ""
        if over < 0:
            return f"byte {address - begin} of {block}{freed}"
        return f"{plural(over, 'byte')} behind the end of {block}" if over else f"just behind the end of {block}"

    def asker(self, event):
        """Who asked for a block: the function that was entered last by an event, since its own helpers ask for it."""
        return next((it.function for it in around(self.frames, event) if it.entered is not None), event.function)

    def in_stack(self, address, number):
        thread, live = (address - STACKS) // STACK, []
        for event in self.events[:number]:
            if event.thread == thread and event.word == "alloca":
                live.append(event)
            elif event.thread == thread and event.word == "leaves":
                live = [it for it in live if it.address < event.address]
            elif event.thread == thread and event.kind != "done":
                live = []
        for event in live:
            if event.address <= address < event.address + event.size:
                return f"byte {address - event.address} of the alloca {event.address:#x}+{event.size} of {event.function}:{event.at}"
        return f"on the stack of thread {thread}, in no alloca that stands"
