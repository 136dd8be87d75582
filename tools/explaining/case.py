"""A case with all its texts, and what stands at which address of its memory."""
import os

from .interface import Interface
from .ir import Text

NATIVES = ("k.alloc", "k.free", "k.zero", "k.try_lock", "k.note", "lxfi_princ_alias")
CODE, GLOBALS, HEAP, STACKS = 0x10000, 0x1000000, 0x2000000, 0x3000000
REGION, STACK = 0x100000, 0x10000


class Unreadable(Exception):
    """A file of the case that is not there."""


def text_of(file):
    try:
        with open(file, encoding="utf-8", errors="replace", newline="") as it:
            return it.read()
    except OSError as error:
        raise Unreadable(f"cannot read {file}") from error


def plural(number, what):
    return f"{number} {what}" + ("" if number == 1 else "s")


class Case:
    """What a case loads and calls. `top` is the repository, which has the texts of the kernel that is brought along."""

    def __init__(self, file, top):
        self.file, self.modules, self.calls = file, {}, []
        # the file of each text but of what is brought along, by `kernel` or the module's name
        self.files = {}
        self.kernel_file = self.interface_file = None
        self.kernel, self.interface = Text(""), Interface("")
        brought = {"kernel": f"{top}/examples/manual/builtin_kernel.ll", "interface": f"{top}/examples/manual/builtin.txt"}
        for line in text_of(file).split("\n"):
            self.statement(line.split(), brought)
        self.addresses()

    def statement(self, words, brought):
        if len(words) > 1 and words[0] in ("kernel", "interface") and words[1] in ("builtin", "file"):
            file = brought[words[0]] if words[1] == "builtin" else words[-1]
            read = Text if words[0] == "kernel" else Interface
            setattr(self, words[0], read(text_of(file)))
            setattr(self, f"{words[0]}_file", words[-1])
            if words[1] == "file":
                self.files[words[0]] = file
        elif words[:1] == ["module"] and len(words) == 3:
            self.modules[words[1]], self.files[words[1]] = Text(text_of(words[2])), words[2]
        elif words[:1] == ["thread"]:
            self.calls.append([])
        elif words[:1] == ["call"] and self.calls and len(words) > 3:
            self.calls[-1].append((words[1], words[2:-2]))

    def texts(self):
        return [("kernel", self.kernel), *self.modules.items()]

    def addresses(self):
        """Where functions and globals are."""
        self.functions = {CODE + 16 * i: ("native", name) for i, name in enumerate(NATIVES)}
        self.globals, at, code = [], GLOBALS, CODE + 16 * len(NATIVES)
        for owner, text in self.texts():
            for it in text.functions:
                self.functions[code] = (owner, it.name)
                code += 16
            for it in text.globals:
                size = text.size(it.kind)
                self.globals.append((at, size, owner, it))
                at += size + -size % 16

    def name_of(self, address):
        """What is at an address, or nothing."""
        if address in self.functions:
            return ":".join(self.functions[address])
        for begin, size, owner, it in self.globals:
            if begin <= address < begin + max(size, 1):
                place = dict(self.texts())[owner].place(it.kind, address - begin)
                while place.endswith(".0"):
                    place = place[:-2]
                return f"{owner}:{it.name}{place}" + (", a constant" if it.is_constant else "")
        for begin, end, owner, it in ((b, b + s, o, g) for b, s, o, g in self.globals):
            if address == end:
                return f"just behind {owner}:{it.name}"
        return self.region_of(address)

    def region_of(self, address):
        if CODE <= address < GLOBALS:
            return "where functions are numbered, but none begins there"
        if GLOBALS <= address < GLOBALS + REGION:
            return "among the globals, in none of them"
        if HEAP <= address < HEAP + REGION:
            return "the heap"
        if STACKS <= address < STACKS + 16 * STACK:
            return f"the stack of thread {(address - STACKS) // STACK}"
        return "null" if address == 0 else "near null" if address < 4096 else "not in memory"


def program_of(top):
    """The words that call lxfi."""
    return [os.environ["LXFI"]] if os.environ.get("LXFI") else [f"{top}/lxfi", "--quick"]
