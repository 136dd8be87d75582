"""A fault in words: its line in the file, and both sides where two texts disagree."""
import re

LINE = re.compile(r"(\S+):(\d+): (case|schedule|ir|interface|cproto|verify|propagate|link|image|limit) (\d) ?(.*)$")
KINDS = {
    ("case", "1"): "a byte that cannot stand in a case", ("case", "2"): "the word cannot stand there",
    ("case", "3"): "no such module is declared", ("case", "4"): "the module is declared twice",
    ("case", "5"): "the number is out of its range", ("case", "6"): "more of them than a case may have",
    ("schedule", "1"): "a byte that cannot stand in a schedule", ("schedule", "2"): "the word is not of the form T*N",
    ("schedule", "5"): "N is 0, or a number is too large", ("schedule", "6"): "more entries than a schedule may have",
    ("ir", "1"): "a byte that begins no token", ("ir", "2"): "the token cannot stand there",
    ("ir", "3"): "the word is outside of what is read", ("ir", "4"): "the name is defined twice", ("ir", "5"): "nothing defines the name",
    ("interface", "1"): "a byte that begins no token", ("interface", "2"): "the token cannot stand there",
    ("interface", "3"): "the name is not declared before this", ("interface", "4"): "the name is declared twice",
    ("interface", "5"): "a `write` needs an address and a size",
    ("verify", "1"): "a value of another type than the instruction wants", ("verify", "2"): "the function has no such label",
    ("verify", "3"): "some way to here does not assign the register", ("verify", "4"): "a `phi` that does not fit its predecessors",
    ("verify", "5"): "the block does not end with a terminator",
    ("propagate", "1"): "the function stands in fields of two slot types whose annotations differ",
    ("link", "1"): "the function is not there", ("link", "2"): "the interface does not export the function",
    ("link", "3"): "two signatures differ", ("link", "4"): "more than memory has room for",
    ("link", "5"): "the kernel's functions may not call by a pointer: use `k.slot.NAME`",
    ("limit", "1"): "the file is larger than 1 MiB",
}
CURES = {
    ("case", "2"): "part 2 of docs/MANUAL.md has the grammar", ("ir", "3"): "tools/module FILE.c says what to change in C",
    ("ir", "2"): "tools/module FILE.c says what to change in C", ("link", "2"): "export it in the interface, or do without it",
    ("propagate", "1"): "write two functions",
}


def fault_in(line):
    return LINE.match(line)


def words_of(signature):
    return signature.text() if signature else "nothing"


def sides(case, kind, number, what):
    """What the texts say of a name that they do not agree on."""
    names = re.findall(r"[@%]?([\w$.]+)", what)
    name = names[0] if names else ""
    found = []
    if kind == "propagate":
        for slot in names[1:]:
            if slot in case.interface.slots:
                found.append(f"slot {slot}: {case.interface.slots[slot].clauses or 'no clause'}")
    if kind == "link" and number in "123":
        if name in case.interface.exports:
            found.append(f"the interface exports it as {words_of(case.interface.exports[name])}")
        for owner, text in case.texts():
            it = text.defined(name) or text.declared.get(name)
            if it:
                found.append(f"{owner} {'defines' if text.defined(name) else 'declares'} it as {it.signature()}")
        found += [f"the slot type {slot} is {words_of(case.interface.slots[slot])}" for slot in sorted(slots_of(case, name))]
    return found


def slots_of(case, name):
    from .lint import slot_types

    return {slot for text in case.modules.values() for slot in slot_types(text, case.interface).get(name, ())}


def fault(case, line, text):
    """The lines that say a fault. `case` is missing where the case itself is not read, `text` gives the lines of a file."""
    file, at, kind, number, what = LINE.match(line).groups()
    kind_of = "interface" if kind == "cproto" else kind
    found = [line, f"    {KINDS.get((kind_of, number), 'a fault')}" + (f": {what}" if what else "")]
    lines = text(file)
    if 0 < int(at) <= len(lines) and lines[int(at) - 1].strip():
        found.append(f"    line {at}: {lines[int(at) - 1].strip()}")
    if case:
        found += [f"    {it}" for it in sides(case, kind, number, what)]
    cure = CURES.get((kind_of, number))
    return found + ([f"    what to do: {cure}"] if cure else [])
