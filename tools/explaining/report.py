"""A report in words: the schedule folded, names at addresses, and both sides of each refusal."""
import re

from .case import HEAP, REGION, plural

TRAPS = {
    "2": "a division by 0, or of the least value by -1",
    "3": "the program came to `unreachable`: C whose behaviour is undefined, as a function with a result that ends without `return`",
    "4": "the thread's stack is full: a large array on it",
    "5": "the thread had 256 frames: recursion",
    "6": "the function there has another signature than the call",
    "7": "`k.free` of no live block: freed twice, or a pointer into a block",
}
RANGE = re.compile(r"(0x[0-9a-f]+)\+(\d+)")


def principal(name):
    """A principal in words."""
    if name == "kernel":
        return "the kernel"
    module, _, rest = name.partition("[")
    if rest:
        return f"the instance {rest[:-1]} of {module}"
    module, _, kind = name.partition(".")
    return f"the {kind} principal of {module}"


def in_reach(who):
    """Tells of an owner whether this principal may use what it has."""
    module = re.split(r"[.[]", who)[0]
    if who == f"{module}.global":
        return lambda owner: re.split(r"[.[]", owner)[0] == module
    return lambda owner: owner in (who, f"{module}.shared")


class Report:
    def __init__(self, case, lines):
        self.case, self.lines, self.owned = case, lines, []
        for line in lines:
            found = re.match(r"owns (\S+) write (0x[0-9a-f]+)\+(\d+)$", line)
            if found:
                self.owned.append((found[1], int(found[2], 16), int(found[3])))
        # what a call gave back, by its address in the heap
        self.given = {}
        for line in lines:
            found = re.match(r"call \S+ (\S+) returned (0x[0-9a-f]+)$", line)
            if found and HEAP <= int(found[2], 16) < HEAP + REGION:
                self.given.setdefault(int(found[2], 16), found[1])

    def said(self):
        found = []
        for line in self.lines:
            found += self.line(line)
        if any(" refused " in it for it in self.lines):
            found.append("(What is owned is told of the end of the run; a refusal may be of an earlier moment.)")
        return found

    def line(self, line):
        word = line.split(" ")[0]
        kinds = {"schedule": self.schedule, "call": self.call, "owns": self.owns, "image": self.image, "note": self.note}
        return kinds[word](line) if word in kinds else [line]

    def schedule(self, line):
        turns = [[*map(int, it.split("*"))] for it in line.split()[1:]]
        events = {}
        for thread, count in turns:
            events[thread] = events.get(thread, 0) + count
        said = [f"thread {it}: {plural(events[it], 'event')}" for it in sorted(events)]
        more = [f"in {len(turns)} turns; to see it again, replay the report's first line"] if len(turns) > 1 else []
        return [", ".join(said + more) or "no event"]

    def call(self, line):
        found = re.match(r"call (\d+)\.(\d+) (\S+) (\S+) ?(.*)$", line)
        if not found:
            return [line]
        thread, number, name, reply, rest = found.groups()
        calls = self.case.calls[int(thread)] if int(thread) < len(self.case.calls) else []
        words = calls[int(number)][1] if int(number) < len(calls) else []
        head = f"call {thread}.{number} {name}({', '.join(words)}) {reply} {rest}".rstrip()
        if reply == "refused":
            return [head, *("    " + it for it in self.refusal(rest))]
        if reply == "trap":
            return [head, *("    " + it for it in self.trap(rest))]
        if reply == "budget":
            return [head, "    its fuel was used up: give it more, or look for a loop without an end"]
        address = int(rest, 16) if rest.startswith("0x") else 0
        return [head + (f", {self.at(address)}" if address and address not in self.given else "")]

    def trap(self, rest):
        kind, _, address = rest.partition(" ")
        where = f"{address} is {self.at(int(address, 16))}" if address else ""
        if kind == "1":
            return [f"the byte at {address} is not mapped" + (": " + self.at(int(address, 16)))]
        return [TRAPS.get(kind, "a trap"), *([where] if where else [])]

    def refusal(self, rest):
        kind, who, *words = rest.split(" ")
        if kind in ("1", "7", "8", "10") and words[:1] == ["write"]:
            return self.write(kind, who, words[1])
        kinds = {"2": self.no_call, "3": self.no_reference, "4": self.no_annotation, "5": self.differs, "6": self.slot, "9": self.alias}
        if kind == "10":
            return [f"{principal(who)} has {' '.join(words)} on loan only: a loan is used, and not copied, transferred or lent on"]
        return kinds[kind](who, words) if kind in kinds else []

    def write(self, kind, who, asked):
        address, size = RANGE.match(asked).groups()
        begin, size = int(address, 16), int(size)
        first = f"{principal(who)} asked for {plural(size, 'byte')} at {address}"
        where = f"{address} is {self.at(begin)}"
        if kind == "7":
            return [f"{first}, to be transferred: bytes of a stack cannot be", where]
        if kind == "8":
            why = ": the kernel's call may have given 0, and the action lacks its `if`" if who == "kernel" else ""
            return [f"{first}, which do not all lie in memory{why}", where]
        if kind == "10":
            return [f"{first}, and has them on loan only: a loan is used, and not copied, transferred or lent on", where]
        return [f"{first}, and {self.holding(who, begin, size)}", where, *self.others(who, begin, size)]

    def holding(self, who, begin, size):
        """How many of the bytes a principal has, and which."""
        mine, has = in_reach(who), []
        for owner, at, count in self.owned:
            low, high = max(at, begin), min(at + count, begin + size)
            if mine(owner) and low < high:
                has.append((low, high - low))
        total = sum(count for _, count in has)
        if not total:
            return "has none of them"
        return f"has {total} of them: " + ", ".join(f"{at:#x}+{count}" for at, count in has)

    def others(self, who, begin, size):
        """Who else has the bytes, and what of the principal's own ends just before."""
        mine, found = in_reach(who), []
        for owner, at, count in self.owned:
            if not mine(owner) and at < begin + size and begin < at + count:
                found.append(f"{principal(owner)} owns {at:#x}+{count}")
            elif mine(owner) and 0 <= begin - at - count < 16:
                gap = begin - at - count
                found.append(f"{principal(owner)} owns {at:#x}+{count}, which ends {'just' if not gap else plural(gap, 'byte')} before")
        return found or ["no other module owns any of them in the end"]

    def no_call(self, who, words):
        first = f"{principal(who)} may not call {words[1]}, {self.at(int(words[1], 16))}"
        return [first, "a module may call what it declares and defines, and what was given to it"]

    def no_reference(self, who, words):
        held = [it.split()[-1] for it in self.lines if it.startswith("owns ") and f" ref {words[1]} " in it and in_reach(who)(it.split()[1])]
        return [
            f"{principal(who)} showed {words[2]} ({self.at(int(words[2], 16))}) as a reference to a {words[1]}, and has no such reference",
            f"it has: {', '.join(held) or 'none'}",
        ]

    def no_annotation(self, who, words):
        address = int(words[1], 16)
        if address in self.case.functions and self.case.functions[address][0] in self.case.modules:
            return [f"{principal(who)} called {self.at(address)}, which has no annotation: it stands in no field that the interface types"]
        first = f"{principal(who)} called {words[1]} ({self.at(address)}), where no annotated function is"
        return [f"{first}: an empty slot, or a function that is not exported"]

    def differs(self, who, words):
        address = words[1].rstrip(":")
        slot, _, target = " ".join(words[2:]).partition(" | ")
        return [
            f"{principal(who)} called {address}, {self.at(int(address, 16))}, through a slot of another kind",
            f"the slot says:     {slot or 'nothing'}",
            f"the function says: {target or 'nothing'}",
        ]

    def slot(self, who, words):
        target, slot = words[1], words[3]
        return [
            f"the slot at {slot} ({self.at(int(slot, 16))}) holds {target}, {self.at(int(target, 16))}",
            f"{principal(who)} could write this slot, and may not itself call that",
        ]

    def alias(self, who, words):
        first = f"{principal(who)} asked for a further name {words[2]} of the instance {words[1]}"
        return [f"{first}: it is not that instance, there is none, or the name is taken"]

    def at(self, address):
        """What is at an address."""
        if HEAP <= address < HEAP + REGION:
            return self.heap(address)
        return self.case.name_of(address)

    def heap(self, address):
        begins = [at for at in self.given if at <= address]
        if address in self.given:
            return f"what {self.given[address]} gave"
        for owner, at, count in self.owned:
            if at <= address < at + count:
                return f"in the heap, byte {address - at} of the {plural(count, 'byte')} at {at:#x} of {owner}"
        if begins and address - max(begins) < 64:
            return f"in the heap, {plural(address - max(begins), 'byte')} behind the begin of what {self.given[max(begins)]} gave"
        return "in the heap"

    def owns(self, line):
        found = re.match(r"owns (\S+) (write|call|ref) (\S+) ?(\S*)$", line)
        if not found:
            return [line]
        who, kind, first, second = found.groups()
        address = int((second or first).split("+")[0], 16)
        is_block = HEAP <= address < HEAP + REGION and address not in self.given
        return [f"{line}: {'in the heap' if is_block else self.at(address)}"]

    def image(self, line):
        found = re.match(r"image (\S+) guards (\d+) checks (\d+) wrappers (\d+)$", line)
        if not found:
            return [line]
        module, stores, calls, wrappers = found.groups()
        return [f"{module}: stores and block writes: {stores}, indirect calls: {calls}, functions that cross: {wrappers}"]

    def note(self, line):
        return [line]
