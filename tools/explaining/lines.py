"""Maps of a module's lines to lines of C: `x.lines` beside `x.ll`.

The first line is `text SUM`, the sha256 of the module's text, and each further one `LINE FILE LINE_OF_C`: a line of the text with an
instruction, and where that stands in C. A FILE that is not absolute is named from the map's folder."""
import hashlib
import os
import re
import sys

ATTACHED = re.compile(r",? !(dbg|[a-z][\w.]*) !\d+")
NOTE = re.compile(r"^(!\d+) = (?:distinct )?!DI(\w+)\((.*)\)")
FIELD = re.compile(r'(\w+): ("[^"]*"|[^,)]+)')


class NoMap(Exception):
    """Why there is no map."""


def file_of(module):
    """Where the map of a module's text is."""
    return re.sub(r"\.ll$", "", module) + ".lines"


def sum_of(text):
    return hashlib.sha256(text.encode(errors="surrogateescape")).hexdigest()


def read(file):
    with open(file, encoding="utf-8", errors="surrogateescape", newline="") as it:
        return it.read()


def map_of(module):
    """The (file, line) in C of each line of a module's text that has one. Nothing where no map is there, or one of another text."""
    try:
        lines = read(file_of(module)).splitlines()
        if not lines or lines[0] != f"text {sum_of(read(module))}":
            return {}
    except OSError:
        return {}
    found = {}
    for line in lines[1:]:
        number, place = line.split(" ", 1)
        file, at = place.rsplit(" ", 1)
        found[int(number)] = os.path.normpath(os.path.join(os.path.dirname(module), file)), int(at)
    return found


def without_notes(text):
    """The lines of a text without debug information: each as the plain compilation prints it, but for attached numbers."""
    lines = [ATTACHED.sub("", it) if it.startswith((" ", "define ")) else it for it in text.split("\n")]
    return [it for it in lines if not it.startswith("!")]


def different(plain, noted):
    """The first line, from 1, in which the text with debug information differs from the one without, or nothing."""
    plain, noted = without_notes(plain), without_notes(noted)
    for at, (one, other) in enumerate(zip(plain, noted), 1):
        if one != other:
            return at
    return None if len(plain) == len(noted) else min(len(plain), len(noted)) + 1


class Notes:
    """The debug information behind a text: its entries by their numbers."""

    def __init__(self, text):
        self.entries = {}
        for line in text.split("\n"):
            found = NOTE.match(line)
            if found:
                self.entries[found[1]] = dict(reversed(FIELD.findall(found[3])))

    def place(self, note):
        """The file and the line of an entry; none where the compiler made what it is of."""
        line = int(self.entries.get(note, {}).get("line", "0"))
        seen = set()
        while note and note not in seen and "file" not in self.entries.get(note, {}):
            seen.add(note)
            note = self.entries.get(note, {}).get("scope")
        file = self.entries.get(self.entries.get(note, {}).get("file"), {}).get("filename", '""')[1:-1]
        return (file, line) if file and line else None


def attached(line):
    found = re.search(r"!dbg (!\d+)", line)
    return found[1] if found else None


def places(text):
    """The place in C of each line with an instruction. One that has none of its own, as an alloca, stands at its function's."""
    notes, found, function, begun = Notes(text), {}, None, None
    for number, line in enumerate(text.split("\n"), 1):
        if line.startswith("define "):
            function = notes.place(attached(line))
        elif line.startswith("}"):
            function = None
        if not function or not line.startswith(" "):
            continue
        # a switch has several lines, and its note behind the last
        begun = begun or number
        if not line.endswith("[") and (begun == number or line.strip().startswith("]")):
            found[begun] = notes.place(attached(line)) or function
            begun = None
    return found


def make(module, noted, to):
    """Writes the map of a module's text by the text that the compiler prints of the same with debug information."""
    plain, noted = read(module), read(noted)
    at = different(plain, noted) if noted else 1
    if at:
        raise NoMap(f"with debug information clang prints another text, from line {at} on")
    folder = os.path.dirname(os.path.abspath(to))
    lines = [f"text {sum_of(plain)}"]
    for number, (file, line) in sorted(places(noted).items()):
        lines.append(f"{number} {file if os.path.isabs(file) else os.path.relpath(file, folder)} {line}")
    with open(to, "w", encoding="utf-8", errors="surrogateescape") as it:
        it.write("\n".join(lines) + "\n")


def main(module, noted, to):
    """Makes a map, or takes away the one that is there and says why."""
    try:
        make(module, noted, to)
    except NoMap as why:
        if os.path.exists(to):
            os.remove(to)
        print(f"warning: {to} is not there: {why}")


if __name__ == "__main__":
    main(*sys.argv[1:])
