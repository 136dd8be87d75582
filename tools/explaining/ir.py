"""Module and kernel texts, as far as an explanation needs them: types with their layout, globals, functions and their instructions.

The program has read such a text before; what it would refuse is passed over here."""
import re

TOKEN = re.compile(r'[ \t\r\n]+|;[^\n]*|c?"[^"]*"|[%@](?:"[^"]*"|[-\w$.]+)|-?\d+|[A-Za-z_$.][\w$.]*|.', re.S)
PASSED_OVER = re.compile(r"(source_filename|target|attributes|!|\$)")
SIMPLE = {"i1": 1, "i8": 1, "i16": 2, "i32": 4, "i64": 8, "ptr": 8}
CLOSES = {"(": ")", "{": "}", "[": "]", "<": ">"}


def plain(name):
    """A name without its quotes and its mark."""
    return name[1:].strip('"')


def tokens_of(text):
    return [it for it in TOKEN.findall(text) if not it[0] in " \t\r\n;"]


def without_comment(line):
    """An instruction's line without what stands behind a `;` outside of quotes."""
    return re.match(r'(?:"[^"]*"|[^";])*', line)[0].strip()


class Reader:
    """Reads types and constants from tokens."""

    def __init__(self, tokens):
        self.tokens, self.at = tokens, 0

    def peek(self):
        return self.tokens[self.at] if self.at < len(self.tokens) else ""

    def take(self):
        self.at += 1
        return self.tokens[self.at - 1] if self.at <= len(self.tokens) else ""

    def type(self):
        """A type: a word, a name as ('name', n), ('array', n, T), ('struct', [T ..]) or ('packed', [T ..])."""
        token = self.take()
        if token.startswith("%"):
            return ("name", plain(token))
        if token == "[":
            count = int(self.take())
            self.take()
            of = self.type()
            self.take()
            return ("array", count, of)
        if token == "<":
            self.take()
            fields = self.types("}")
            self.take()
            return ("packed", fields)
        return ("struct", self.types("}")) if token == "{" else token

    def types(self, end):
        found = []
        while self.peek() not in (end, ""):
            found.append(self.type())
            if self.peek() == ",":
                self.take()
        self.take()
        return found

    def constant(self, of):
        """A constant of a type: ('name', n), ('parts', T, [..]) or ('other', tokens)."""
        token = self.peek()
        if token.startswith("@"):
            return ("name", plain(self.take()))
        if token in ("{", "[", "<"):
            return ("parts", of, self.parts())
        if token in ("getelementptr", "ptrtoint", "inttoptr"):
            return ("other", [self.take(), *self.group()])
        return ("other", [self.take()])

    def parts(self):
        is_packed = self.take() == "<"
        if is_packed:
            self.take()
        found = []
        while self.peek() not in ("}", "]", ""):
            found.append(self.constant(self.type()))
            if self.peek() == ",":
                self.take()
        self.take()
        if is_packed:
            self.take()
        return found

    def group(self):
        """The tokens up to the bracket that closes the next one."""
        found, depth = [], 0
        while self.peek():
            token = self.take()
            found.append(token)
            depth += (token == "(") - (token == ")")
            if depth == 0 and "(" in found:
                break
        return found


class Function:
    def __init__(self, name, line, result, parameters):
        self.name, self.line, self.result, self.parameters = name, line, result, parameters
        # (line, text) of each instruction
        self.body = []

    def signature(self):
        return f"{self.result} @{self.name}({', '.join(kind for kind, _ in self.parameters)})"


class Global:
    def __init__(self, name, line, kind, value, is_constant):
        self.name, self.line, self.kind, self.value, self.is_constant = name, line, kind, value, is_constant


class Text:
    """A text: types, globals and defined functions in their order, and what it declares."""

    def __init__(self, source):
        self.types, self.globals, self.functions, self.declared = {}, [], [], {}
        self.lines = source.split("\n")
        at = 0
        while at < len(self.lines):
            at = self.statement(at)

    def statement(self, at):
        """Reads the statement that begins in a line, and gives the line behind it."""
        line = without_comment(self.lines[at])
        if not line or PASSED_OVER.match(line):
            return at + 1
        if line.startswith(("define", "declare")):
            return self.function(line, at)
        end, tokens = at + 1, tokens_of(line)
        while end < len(self.lines) and (len(tokens) < 4 or self.is_open(tokens)):
            tokens += tokens_of(without_comment(self.lines[end]))
            end += 1
        self.definition(tokens, at + 1)
        return end

    def is_open(self, tokens):
        return sum((it in CLOSES) - (it in CLOSES.values()) for it in tokens) > 0

    def definition(self, tokens, line):
        if len(tokens) < 3 or tokens[1] != "=":
            return
        if tokens[2] == "type":
            self.types[plain(tokens[0])] = Reader(tokens[3:]).type()
            return
        for at, token in enumerate(tokens):
            if token in ("global", "constant"):
                it = Reader(tokens[at + 1 :])
                kind = it.type()
                self.globals.append(Global(plain(tokens[0]), line, kind, it.constant(kind), token == "constant"))
                return

    def function(self, line, at):
        match = re.match(r'(define|declare)\b(.*?)(@"[^"]*"|@[-\w$.]+)\s*\((.*)', line)
        if not match:
            return at + 1
        inside = Reader(tokens_of("(" + match[4])).group()[1:-1]
        made = Function(plain(match[3]), at + 1, tokens_of(match[2])[-1] if match[2].strip() else "?", parameters_of(inside))
        if match[1] == "declare":
            self.declared[made.name] = made
            return at + 1
        self.functions.append(made)
        at += 1
        while at < len(self.lines) and self.lines[at].strip() != "}":
            said = without_comment(self.lines[at])
            if said:
                made.body.append((at + 1, said))
            at += 1
        return at + 1

    def defined(self, name):
        return next((it for it in self.functions if it.name == name), None)

    def size(self, kind):
        return self.layout(kind)[0]

    def layout(self, kind, depth=0):
        """The size and the alignment of a type."""
        if isinstance(kind, str) or depth > 80:
            size = SIMPLE.get(kind, 8)
            return size, size
        if kind[0] == "name":
            return self.layout(self.types.get(kind[1], "ptr"), depth + 1)
        if kind[0] == "array":
            size, align = self.layout(kind[2], depth + 1)
            return kind[1] * size, align
        offsets, size, align = self.fields(kind, depth)
        return size, align

    def fields(self, kind, depth=0):
        """Where the fields of a struct begin, its size and its alignment."""
        offsets, at, most = [], 0, 1
        for it in kind[1]:
            size, align = self.layout(it, depth + 1)
            align = 1 if kind[0] == "packed" else align
            at += -at % align
            offsets.append(at)
            at, most = at + size, max(most, align)
        return offsets, at + -at % most, most

    def place(self, kind, offset):
        """What stands in a type at an offset, as `.1[3].0`."""
        said, name = "", kind
        while True:
            kind = self.types.get(name[1], "ptr") if name[0] == "name" else name
            if isinstance(kind, str):
                return said + (f"+{offset}" if offset else "")
            if kind[0] == "array":
                size = max(self.size(kind[2]), 1)
                said, offset, name = f"{said}[{offset // size}]", offset % size, kind[2]
                continue
            begins = self.fields(kind)[0]
            field = max((i for i, begin in enumerate(begins) if begin <= offset), default=None)
            if field is None:
                return said
            said, offset, name = f"{said}.{field}", offset - begins[field], kind[1][field]


def parameters_of(tokens):
    """The (type, name) of each parameter; one without a name has the next number."""
    found, depth, current = [], 0, []
    for token in [*tokens, ","]:
        depth += (token in "([{") - (token in ")]}")
        if token != "," or depth:
            current.append(token)
        elif current:
            named = current[-1] if current[-1].startswith("%") and len(current) > 1 else f"%{len(found)}"
            found.append((current[0], named))
            current = []
    return found
