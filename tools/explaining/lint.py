"""What of an interface, its kernel and its modules is likely to be a mistake. It looks at texts alone; none of it is a fault."""
import re

from .ir import Reader, plain, tokens_of

NAME = r'(?:"[^"]*"|[-\w$.]+)'
CALL = re.compile(rf"(?:(%{NAME}) = )?(?:tail |notail |musttail )?call\b[^@%]*?(@{NAME}|%{NAME})\((.*)\)")
OPERAND = re.compile(rf"[%@]{NAME}")
FLAGS = ("inbounds", "nuw", "nusw")
# The natives and block writes that write through their first argument.
WRITERS = re.compile(r"k\.zero$|llvm\.mem(cpy|move|set)\.")


def arguments_of(text):
    """The arguments of a call, at their commas."""
    found, depth, current = [], 0, ""
    for sign in text + ",":
        depth += (sign in "([{") - (sign in ")]}")
        if sign == "," and depth <= 0:
            found.append(current.strip())
            current = ""
        else:
            current += sign
    return [it for it in found if it]


def field_of(text, kind, indices):
    """The struct and the number of the field that the last index of a `getelementptr` names, or nothing."""
    found = None
    for index in indices:
        name = kind[1] if kind[0] == "name" else None
        kind = text.types.get(name, "ptr") if name else kind
        if isinstance(kind, str):
            return None
        if kind[0] == "array":
            found, kind = None, kind[2]
        elif 0 <= index < len(kind[1]):
            found, kind = (name, index) if name else None, kind[1][index]
        else:
            return None
    return found


def path_of(text, tokens):
    """The field that the tokens behind `getelementptr` name."""
    tokens = [it for it in tokens if it not in FLAGS]
    it = Reader(tokens[1:] if tokens[:1] == ["("] else tokens)
    kind = it.type()
    rest = it.tokens[it.at :]
    values = [rest[i + 1] for i in range(len(rest) - 1) if re.match(r"i\d+$", rest[i])]
    return field_of(text, kind, [int(v) if re.match(r"-?\d+$", v) else 0 for v in values[1:]])


def fields_in_global(text, tokens):
    """The fields of a global that begin at the offset which a constant `getelementptr` gives."""
    tokens = [it for it in tokens if it not in FLAGS]
    it = Reader(tokens[1:])
    step, offset = it.type(), 0
    rest = it.tokens[it.at :]
    base = next((word for word in rest if word.startswith("@")), "")
    values = [int(rest[i + 1]) for i in range(len(rest) - 1) if re.match(r"i\d+$", rest[i]) and re.match(r"-?\d+$", rest[i + 1])]
    for number, value in enumerate(values):
        step = text.types.get(step[1], "ptr") if step[0] == "name" else step
        if number == 0:
            offset += value * text.size(step)
        elif step[0] == "array":
            offset, step = offset + value * text.size(step[2]), step[2]
        elif not isinstance(step, str) and value < len(step[1]):
            offset, step = offset + text.fields(step)[0][value], step[1][value]
    kinds = [it.kind for it in text.globals if it.name == plain(base)] if base else []
    return first_fields(text, kinds[0], offset) if kinds else []


def first_fields(text, kind, offset=0):
    """The fields that begin at an offset of a type."""
    found = []
    while not isinstance(kind, str):
        name = kind[1] if kind[0] == "name" else None
        kind = text.types.get(name, "ptr") if name else kind
        if isinstance(kind, str):
            break
        if kind[0] == "array":
            size = max(text.size(kind[2]), 1)
            offset, kind = offset % size, kind[2]
            continue
        begins = text.fields(kind)[0]
        number = max((i for i, begin in enumerate(begins) if begin <= offset), default=None)
        if number is None:
            break
        offset -= begins[number]
        if name and not offset:
            found.append((name, number))
        kind = kind[1][number]
    return found


def initialised(text, value, found):
    """Adds the (function, field) pairs of an initialiser; the field is missing where a function stands in no named struct."""
    if value[0] == "parts":
        for i, part in enumerate(value[2]):
            if part[0] == "name":
                found.append((part[1], (value[1][1], i) if value[1][0] == "name" else None))
            else:
                initialised(text, part, found)


def stored(text, function):
    """The (function, fields, line) of each store of a function's address."""
    reached = {}
    for line, said in function.body:
        found = re.match(rf"(%{NAME}) = getelementptr (.*)", said)
        if found:
            reached[found[1]] = path_of(text, tokens_of(found[2]))
        found = re.match(rf"store ptr (@{NAME}), ptr (.*)", said)
        if found:
            yield plain(found[1]), fields_at(text, tokens_of(found[2]), reached), line


def fields_at(text, tokens, reached):
    """The fields that begin at an address."""
    if tokens[0] == "getelementptr":
        return fields_in_global(text, tokens[1:])
    if tokens[0].startswith("@"):
        kinds = [it.kind for it in text.globals if it.name == plain(tokens[0])]
        return first_fields(text, kinds[0]) if kinds else []
    return [it for it in [reached.get(tokens[0])] if it]


def places_of(text):
    """Where the addresses of a text's own functions go: (function, fields, line), and what it is stored or passed to."""
    own = {it.name for it in text.functions}
    for it in text.globals:
        found = []
        initialised(text, it.value, found)
        yield from ((name, [field] if field else [], it.line, f"@{it.name}") for name, field in found if name in own)
        if it.value[0] == "name" and it.value[1] in own:
            yield it.value[1], first_fields(text, it.kind), it.line, f"@{it.name}"
    for function in text.functions:
        for name, fields, line in stored(text, function):
            if name in own:
                yield name, fields, line, "a store"
        for line, said in function.body:
            yield from passed(text, own, line, said)


def passed(text, own, line, said):
    found = CALL.search(said)
    if found and found[2].startswith("@") and plain(found[2]) in text.declared:
        for argument in arguments_of(found[3]):
            name = OPERAND.search(argument)
            if name and name[0].startswith("@") and plain(name[0]) in own:
                yield plain(name[0]), [], line, f"the call of @{plain(found[2])}"


def slot_types(text, interface):
    """The slot types of a module's functions, by their names."""
    found = {}
    for name, fields, _, _ in places_of(text):
        for field in fields:
            if field in interface.fields:
                found.setdefault(name, set()).add(interface.fields[field])
    return found


def unmet_fields(case):
    """A `field` that no module's type meets."""
    for (struct, number), slot in case.interface.fields.items():
        kinds = [text.types[struct] for text in case.modules.values() if struct in text.types]
        where = f"{case.interface_file}:{case.interface.line_of_field[(struct, number)]}: field %{struct} {number}, {slot}"
        meant = near(case)
        # (a module need not use what the interface that is brought along has)
        if not kinds and case.modules and (meant or case.interface_file != "builtin"):
            yield f"{where}: no module has a type of this name{meant}"
        for kind in kinds:
            fields = kind[1] if not isinstance(kind, str) and kind[0] != "array" else []
            if number >= len(fields):
                yield f"{where}: the module's type has {len(fields)} fields"
            elif fields[number] != "ptr":
                yield f"{where}: in the module's type this field is no pointer"


def near(case):
    """The names of types that modules store functions into, of which one may be meant."""
    used = {it[0] for text in case.modules.values() for _, fields, _, _ in places_of(text) for it in fields}
    used -= {it for it, _ in case.interface.fields}
    return f"; functions stand in {', '.join('%' + it for it in sorted(used))}, which no field types" if used else ""


def untyped_callbacks(case):
    """A function that is handed out and has no slot type."""
    for module, text in case.modules.items():
        typed = slot_types(text, case.interface)
        seen = set()
        for name, fields, line, to in places_of(text):
            is_handed = fields or to.startswith("the call")
            if name in typed or name in seen or not is_handed or not case.interface.slots:
                continue
            seen.add(name)
            where = f"goes into {', '.join(f'field {n} of %{struct}' for struct, n in fields)}" if fields else f"goes to {to}"
            yield f"{module}, line {line}: @{name} {where}, and has no slot type: a call of the kernel through it is refused 4"


class Locks:
    """The kernel's locks: which functions take one, and which give one back."""

    def __init__(self, text):
        self.text, self.takes, self.gives = text, set(), set()
        for _ in text.functions:
            before = len(self.takes) + len(self.gives)
            for it in text.functions:
                held, gave = self.walk(it, lambda *_: None)
                self.takes |= {it.name} if held else set()
                self.gives |= {it.name} if gave else set()
            if len(self.takes) + len(self.gives) == before:
                break

    def walk(self, function, at_slot):
        """Goes through a function in the order of its text: which locks it holds at the end, and whether it gives one back."""
        held, gave = set(), False
        for line, said in function.body:
            call = CALL.search(said)
            name = plain(call[2]) if call and call[2].startswith("@") else ""
            if name == "k.try_lock":
                held.add(operand_of(call[3]))
            elif name in self.takes:
                held.add(name)
            elif name in self.gives:
                held, gave = set(), True
            elif name.startswith("k.slot.") and held:
                at_slot(line, name)
            zero = re.match(r"store i32 0, ptr (\S+?)(,|$)", said)
            if zero and (zero[1] in held or zero[1] in self.locks()):
                held, gave = held - {zero[1]}, True
        return held, gave

    def locks(self):
        """The globals that are locks."""
        calls = (CALL.search(said) for it in self.text.functions for _, said in it.body if "@k.try_lock(" in said)
        return {it for it in (operand_of(call[3]) for call in calls if call) if it.startswith("@")}


def operand_of(text):
    found = OPERAND.findall(text)
    return found[0] if found else ""


def held_locks(case):
    """A lock that is held across a slot call: where the call is refused, nobody gives it back."""
    locks, found = Locks(case.kernel), []
    for function in case.kernel.functions:
        def at_slot(line, name, function=function):
            why = "where the module's call is refused, nobody gives it back"
            found.append(f"{case.kernel_file}:{line}: @{function.name} holds a lock across {name}: {why}")
        locks.walk(function, at_slot)
    return found


class Writes:
    """Which functions of the kernel write through which of their parameters."""

    def __init__(self, text):
        self.text, self.through = text, {it.name: set() for it in text.functions}
        is_new = True
        while is_new:
            is_new = any([self.look(it) for it in text.functions])

    def look(self, function):
        """Adds what a function writes through; tells whether anything came to be known."""
        before = len(self.through[function.name])
        for number, (kind, name) in enumerate(function.parameters):
            if kind == "ptr" and self.is_written(function, self.derived(function, name)):
                self.through[function.name].add(number)
        return len(self.through[function.name]) > before

    def derived(self, function, parameter):
        """The registers that come from a parameter, by way of the stack's slots too."""
        found, slots = {parameter}, set()
        for _ in range(4):
            for _, said in function.body:
                store = re.match(rf"store ptr (%{NAME}), ptr (%{NAME})", said)
                if store and store[1] in found and store[2] not in found:
                    slots.add(store[2])
                made = re.match(rf"(%{NAME}) = (\w+) (.*)", said)
                if not made or made[2] in ("call", "icmp", "alloca"):
                    continue
                is_load = made[2] == "load"
                if any(it in (slots if is_load else found) for it in OPERAND.findall(made[3])):
                    found.add(made[1])
        return found

    def is_written(self, function, registers):
        for _, said in function.body:
            store = re.match(rf"store .*, ptr (%{NAME})(,|$)", said)
            if store and store[1] in registers:
                return True
            call = CALL.search(said)
            if call and call[2].startswith("@") and self.passes_on(plain(call[2]), arguments_of(call[3]), registers):
                return True
        return False

    def passes_on(self, callee, arguments, registers):
        written = {0} if WRITERS.match(callee) else self.through.get(callee, set())
        passed_on = [OPERAND.findall(arguments[i])[-1:] for i in written if i < len(arguments)]
        return any(it and it[0] in registers for it in passed_on)


def unchecked_exports(case):
    """An export without a check on a pointer that it writes through."""
    writes = Writes(case.kernel)
    for name, export in case.interface.exports.items():
        for number in sorted(writes.through.get(name, ())):
            if number >= len(export.parameters):
                continue
            parameter = export.parameters[number][1]
            if not any(asks_for(case, it, parameter) for it in export.actions if it.when == "pre"):
                yield f"{case.interface_file}:{export.line}: the kernel's @{name} writes through '{parameter}', and no pre of its export asks for it"


def asks_for(case, action, parameter):
    """Whether an action asks the caller for bytes at a parameter, or for a reference to it."""
    if action.verb not in ("check", "copy", "transfer", "lend"):
        return False
    is_write = action.of in ("write", "ref") or action.of in case.interface.iterators
    return is_write and (parameter in action.names)


def lint(case):
    found = [*unmet_fields(case), *untyped_callbacks(case), *held_locks(case), *unchecked_exports(case)]
    return list(dict.fromkeys(found))
