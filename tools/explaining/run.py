"""A run of a case: its report, its trace, what `why` says of it, and the texts and the C files that its lines stand in."""
import os
import subprocess
import tempfile

from . import lines
from .acts import Placing, opening_count, why_of
from .case import Case, Unreadable, program_of, text_of
from .lint import places_of
from .trace import Places, events_of, frames_of


class Failed(Exception):
    """A program that wrote no report, trace or certificates: its status, and what it wrote."""

    def __init__(self, status, said):
        super().__init__(said)
        self.status, self.said = status, said


def tracer_of(top):
    """The words that call the program that traces."""
    return [os.environ["LXFI_TRACE"]] if os.environ.get("LXFI_TRACE") else [f"{top}/lxfi", "--quick", "trace"]


def written(words):
    """What a program writes of a run."""
    try:
        ran = subprocess.run(words, stdout=subprocess.PIPE, stdin=subprocess.DEVNULL, check=False)
    except OSError as error:
        raise Failed(70, f"{words[0]} does not run: {error.strerror}") from error
    text = ran.stdout.decode(errors="replace")
    if ran.returncode > 1 or ran.returncode < 0:
        raise Failed(ran.returncode if ran.returncode > 1 else 70, text.strip() or f"{words[0]} ended with status {ran.returncode}")
    return text


class Run:
    def __init__(self, file, schedule, top):
        self.top = top
        with tempfile.TemporaryDirectory() as folder:
            program = program_of(top)
            report = written([*program, "replay", file, schedule] if schedule else [*program, "run", file])
            if not schedule:
                schedule = f"{folder}/schedule"
                with open(schedule, "w", encoding="utf-8") as it:
                    it.write(report.split("\n")[0] + "\n")
            trace = written([*tracer_of(top), file, schedule])
            why = written([*program, "why", file, schedule])
        self.take(Case(file, top), report, trace, why)

    def take(self, case, report, trace, why):
        self.case, self.report = case, [it for it in report.split("\n") if it]
        self.events, self.why = events_of(trace), why_of(why)
        entries = sum(int(it.split("*")[1]) for it in self.report[0].split()[1:])
        if len(self.events) != entries:
            raise Failed(70, f"the trace has {len(self.events)} events, and the schedule {entries} entries")
        self.frames = frames_of(self.events)
        self.places = Places(case, self.events, self.frames)
        self.slots, self.maps, self.texts = {}, {}, {}
        for event in self.events:
            if event.enters and event.what.startswith("calls slot "):
                self.slots[event.enters] = event.what.split(" ")[2]
        self.is_placed = Placing(self.why, self.events, self.verb_of).run(opening_count(case))

    def signature(self, function):
        """The annotation of a function: of an export, or of the slot type that it has."""
        owner, name = function.split(":", 1)
        if owner == "kernel":
            return self.case.interface.exports.get(name)
        if function not in self.slots and owner in self.case.modules:
            fields = [it for named, found, _, _ in places_of(self.case.modules[owner]) if named == name for it in found]
            self.slots[function] = next((self.case.interface.fields[it] for it in fields if it in self.case.interface.fields), None)
        return self.case.interface.slots.get(self.slots.get(function))

    def verb_of(self, event):
        """Of an action: its verb, of what it is, and whether that is a list of any length. The verb is `end` where loans end behind a call."""
        signature = self.signature(event.of)
        if not signature:
            return None, None, True
        actions = [it for it in signature.actions if it.when == event.word]
        if event.index >= len(actions):
            return "end", None, False
        it = actions[event.index]
        return it.verb, it.of, it.of not in ("write", "call", "ref")

    def file_of(self, owner):
        """The file of a text, or the copy of the kernel that is brought along."""
        if owner == "kernel":
            return self.case.files.get("kernel") or f"{os.path.relpath(self.top)}/examples/manual/builtin_kernel.ll".removeprefix("./")
        return self.case.files[owner]

    def lines_of(self, file):
        if file not in self.texts:
            try:
                self.texts[file] = text_of(file).split("\n")
            except Unreadable:
                self.texts[file] = []
        return self.texts[file]

    def line(self, file, number):
        """A line of a file, or nothing."""
        found = self.lines_of(file)
        return found[number - 1].rstrip("\r") if 0 < number <= len(found) else None

    def in_text(self, event):
        """The file and the line of the text that asks; nothing of a script."""
        return (self.file_of(event.module()), event.at) if event.function else None

    def in_c(self, event):
        """The file and the line of C, where there is a map."""
        if not event.function:
            return None
        file = self.file_of(event.module())
        if file not in self.maps:
            self.maps[file] = lines.map_of(file)
        return self.maps[file].get(event.at)

    def stopped(self):
        """Each call of the report that did not return, with its line and the event that ended it."""
        ends = {(it.thread, it.call): it for it in self.events if it.kind != "done"}
        for line in self.report:
            words = line.split(" ")
            if words[0] == "call" and words[3] != "returned":
                thread, call = words[1].split(".")
                yield line, ends.get((int(thread), int(call)))
