"""Interface texts, as statements or as prototypes of C: what is exported, which slots there are, and which field has which slot type."""
import re

TOKEN = re.compile(r"\s+|[A-Za-z_$.][\w$.]*|%[-\w$.]+|\d+|<<|>>|==|!=|<=|>=|&&|\|\||.", re.S)
WORD = re.compile(r"[A-Za-z_$.][\w$.]*\Z")
STATEMENTS = ("reftype", "iterator", "slot", "field", "export")
CLAUSES = ("pre", "post", "principal")
VERBS = ("check", "copy", "transfer", "lend")


class Action:
    """An action of a `pre` or `post`: its verb, what it is of (write, call, ref or the name of an iterator), and the words that it names."""

    def __init__(self, when, tokens):
        self.when = when
        while tokens[:1] == ["if"]:
            tokens = tokens[closing(tokens, 1) + 1 :]
        self.verb, inside = tokens[0] if tokens else "", tokens[2:-1]
        self.of = inside[0] if inside else ""
        self.names = {it for it in inside[1:] if WORD.match(it)}


class Signature:
    def __init__(self, name, line, result, parameters, clauses):
        self.name, self.line, self.result, self.parameters = name, line, result, parameters
        self.actions, self.clauses = actions_of(clauses), said(clauses)

    def text(self):
        return f"{self.result} ({', '.join(f'{kind} {name}' for kind, name in self.parameters)})"


class Interface:
    def __init__(self, text):
        self.references, self.iterators, self.slots, self.exports, self.fields = [], {}, {}, {}, {}
        self.line_of_field = {}
        self.is_prototypes = text.split("\n")[0] == "lxfi_c 1"
        self.read = Prototypes(self, text) if self.is_prototypes else Statements(self, text)


def said(tokens):
    """Tokens as a text."""
    text = " ".join(tokens)
    for old, new in ((" ,", ","), ("( ", "("), (" )", ")"), (" (", "("), ("if(", "if ("), (" ;", ";")):
        text = text.replace(old, new)
    return text


def closing(tokens, at):
    """The place of the bracket that closes the one at a place."""
    depth = 0
    for i in range(at, len(tokens)):
        depth += (tokens[i] in ("(", "{")) - (tokens[i] in (")", "}"))
        if depth == 0:
            return i
    return len(tokens) - 1


def tokens_of(text):
    """Tokens, each with its line."""
    found, line = [], 1
    for token in TOKEN.findall(text):
        if not token.isspace():
            found.append((token, line))
        line += token.count("\n")
    return found


def actions_of(tokens):
    """The actions of clauses."""
    found, at = [], 0
    while at < len(tokens):
        end = closing(tokens, at + 1)
        if tokens[at] in ("pre", "post"):
            found.append(Action(tokens[at], tokens[at + 2 : end]))
        at = end + 1
    return found


def blank(match):
    """A comment without its words, so that lines keep their numbers."""
    return "\n" * match[0].count("\n") + " "


class Statements:
    def __init__(self, to, text):
        self.to = to
        both = tokens_of(re.sub(r"#[^\n]*", "", text))
        self.tokens, self.lines = [it for it, _ in both], [line for _, line in both]
        begins = [i for i, it in enumerate(self.tokens) if it in STATEMENTS and self.depth_is_none(i)]
        for begin, end in zip(begins, [*begins[1:], len(self.tokens)]):
            self.statement(self.tokens[begin:end], self.lines[begin])

    def depth_is_none(self, at):
        """Whether a word begins a statement: it stands in no brackets, and is no name that is being declared."""
        before = self.tokens[:at]
        return sum((it in "({") - (it in ")}") for it in before) == 0 and before[-1:] not in ([":"], *([it] for it in STATEMENTS))

    def statement(self, it, line):
        if len(it) < 2:
            return
        if it[0] == "reftype":
            self.to.references.append(it[1])
        elif it[0] == "iterator":
            self.to.iterators[it[1]] = it[6:-1]
        elif it[0] == "field" and len(it) > 4:
            self.to.fields[(it[1][1:], int(it[2]))] = it[4]
            self.to.line_of_field[(it[1][1:], int(it[2]))] = line
        elif it[0] in ("slot", "export") and len(it) > 4:
            end = closing(it, 4)
            inside = [word for word in it[5:end] if word != ","]
            made = Signature(it[1], line, it[3], [*zip(inside[::2], inside[1::2])], it[end + 1 :])
            (self.to.slots if it[0] == "slot" else self.to.exports)[it[1]] = made


class Prototypes:
    def __init__(self, to, text):
        self.to = to
        text = re.sub(r"//[^\n]*|/\*.*?\*/", blank, text, flags=re.S)
        both = tokens_of(text)[2:]
        self.tokens, self.lines = [it for it, _ in both], [line for _, line in both]
        at = 0
        while at < len(self.tokens):
            at = self.declaration(at)

    def declaration(self, at):
        it, name = self.tokens, self.tokens[at + 1 : at + 2]
        if it[at] == "reftype":
            self.to.references += name
            return at + 3
        if it[at] == "iterator":
            end = closing(it, at + 5)
            self.to.iterators[name[0]] = it[at + 6 : end]
            return end + 1
        if it[at] == "struct" and it[at + 2 : at + 3] == ["{"]:
            end = closing(it, at + 2)
            self.members(name[0], at + 3, end)
            return end + 2
        end = self.end_of(at)
        made = self.signature(at, end)
        if made:
            self.to.exports[made.name] = made
        return end + 1

    def end_of(self, at):
        """The `;` of a declaration."""
        depth = 0
        for i in range(at, len(self.tokens)):
            depth += (self.tokens[i] in "({") - (self.tokens[i] in ")}")
            if self.tokens[i] == ";" and depth == 0:
                return i
        return len(self.tokens)

    def members(self, struct, at, end):
        number = 0
        while at < end:
            last = self.end_of(at)
            made = self.signature(at, last)
            if made:
                self.to.slots[made.name] = made
                self.to.fields[(f"struct.{struct}", number)] = made.name
                self.to.line_of_field[(f"struct.{struct}", number)] = made.line
            at, number = last + 1, number + 1

    def signature(self, at, end):
        """A prototype, or a member that holds a function."""
        it = self.tokens[at:end]
        if "(" not in it:
            return None
        opening = it.index("(")
        result, name = it[: opening - 1], it[opening - 1]
        if it[opening + 1 : opening + 2] == ["*"]:
            result, name, opening = it[:opening], it[opening + 2], opening + 4
        last = closing(it, opening)
        parameters, current = [], []
        for word in [*it[opening + 1 : last], ","]:
            if word != ",":
                current.append(word)
            elif len(current) > 1:
                parameters.append((type_of(current[:-1]), current[-1]))
                current = []
        return Signature(name, self.lines[at], type_of(result), parameters, it[last + 1 :])


def type_of(words):
    """The type of an interface that a type of C is."""
    words = [it for it in words if it != "const"]
    if "*" in words:
        return "ptr"
    if words and words[0] in ("void", "bool", "_Bool"):
        return "void" if words[0] == "void" else "bool"
    sign = "u" if "unsigned" in words else "i"
    for base, bits in (("char", 8), ("short", 16), ("long", 64), ("size_t", 64)):
        if base in words:
            return "i64" if bits == 64 else f"{sign}{bits}"
    return f"{sign}32"
