"""The language of crates/test_acceptance/data/cases, carried out by the model. Blocks: a line, and the lines after it
that begin with two spaces."""
from __future__ import annotations

import pathlib
from typing import Callable, Dict, List, NamedTuple, Optional, Sequence, Tuple, Union

from .calls import carried
from .commands import Left, Limits, NoMemory, run_plan
from .contents import ADMISSION, ARCHIVES, OPS, SUM, Source, archive_of, covering, good_front
from .hints import second_line
from .images import sha
from .indexes import EARLIER_IDX, IDX
from .parts import Bad, Store, first_word, named, parts_bytes, text_line, words_of
from .plans import Copy, Plan

__all__ = ["Bad", "Bench", "Copy", "Line", "cases_of", "text_of"]

# A line, and what has to come of it.
Line = Tuple[str, List[str]]
# Calls over images, streams and memory, in which no archive stands.
COPIED = {
    *("asked", "kind", "fat", "image", "check", "nearest", "named", "reading", "writing", "room", "room-of-bytes"),
    "plan",
}
# Those of them that leave the limits to the next line.
KEEPING = ("plan", "room", "room-of-bytes")
MOST_LINES = 40


# ---- what is told of what came


def report_lines(report: bytes) -> List[str]:
    text = report.decode("latin-1")
    rows = text.split("\n")
    if rows[-1] == "":
        rows.pop()
    if len(rows) > MOST_LINES:
        return [f"  {len(rows)} lines {sha(report).hex()}"]
    cut = ["  (the last line is cut)"] if text and not text.endswith("\n") else []
    return [f"  | {it}" for it in rows] + cut


def left_lines(left: Left) -> List[str]:
    if left.end.kind == "given" and not left.report:
        return ["  nothing"]
    lines = report_lines(left.report)
    if left.out:
        lines.append(f"  {'draft' if left.is_draft else 'OUT'} {text_line(left.out)}")
    return lines + {
        "done": [f"  status {left.end.status}"],
        "refused": [f"  symarch: {left.end.text}", "  status 2"],
        "wanting": [f"  symarch: {left.end.text}", "  status 4"],
        "fault": [f"  {left.end.text}"],
    }.get(left.end.kind, [])


def kept_text(b: bytes, whole: bytes, place: Optional[int]) -> str:
    """How much of the whole is kept, beside the place at which an output failed."""
    if not b:
        return "that many first bytes" if place == 0 else "nothing"
    if b == whole:
        return "all"
    is_front = whole.startswith(b)
    if is_front and place == len(b):
        return "that many first bytes"
    return f"{len(b)} {'first' if is_front else 'other'} bytes"


def outcome(place: int, left: Left, whole: Left) -> str:
    """What came where something failed at a place, beside what comes without that."""
    kind, text, status = left.end
    failed = {it: text == f"{it}: failed after {place} bytes" for it in ("output", "report")}
    if kind == "refused" and any(failed.values()):
        end = f"status 2, {'output' if failed['output'] else 'report'}: failed after that many bytes"
    elif kind in ("done", "given"):
        end = f"status {status}" if kind == "done" else "given"
        end += " as ever" if left.end == whole.end else ""
    else:
        end = f"status 2, {text}" if kind == "refused" else text
        failed = {}
    report = kept_text(left.report, whole.report, place if failed.get("report") else None)
    if kind in ("given", "fault"):
        return f"{end}; told {report}"
    return f"{end}; OUT {kept_text(left.out, whole.out, place if failed.get('output') else None)}; report {report}"


# ---- files of the system


class Folder:
    """Names of files, which may be links to other names; and what each file has, by its number."""

    def __init__(self) -> None:
        self.names: Dict[str, Union[str, int]] = {}
        self.files: Dict[int, bytes] = {}

    def resolve(self, name: str) -> Tuple[str, Optional[int]]:
        """The last name that links lead to, and the number of its file."""
        name = name[2:] if name.startswith("./") else name
        at = self.names.get(name)
        return self.resolve(at) if isinstance(at, str) else (name, at)

    def read(self, name: str) -> Optional[bytes]:
        _, number = self.resolve(name)
        return None if number is None else self.files[number]

    def write(self, name: str, b: bytes) -> None:
        _, number = self.resolve(name)
        if number is None:
            self.put(name, b)
        else:
            self.files[number] = b

    def put(self, name: str, b: bytes) -> None:
        """A new file, in the place of the one that was there."""
        name, _ = self.resolve(name)
        number = len(self.files)
        self.names[name], self.files[number] = number, b

    def link(self, kind: str, new: str, target: str) -> None:
        number = self.resolve(target)[1]
        if kind == "soft":
            self.names[new] = target
        elif number is not None:
            self.names[new] = number


# The files of the program by their first bytes, and what a command replaces that writes no archive.
KINDS = {
    **{it: "an archive" for it in ARCHIVES},
    OPS: "an operations file",
    SUM: "a summary",
    **{it: "an index" for it in (IDX, EARLIER_IDX)},
}
REPLACED = {"summary": [SUM], "index": [IDX, EARLIER_IDX]}


def obstacle(command: str, there: bytes, new: Optional[bytes]) -> Optional[str]:
    """Why a file with these bytes does not give way to the new ones, if it does not; there are none if a command is
    stopped before it has all of them."""
    if there and there[:8] not in REPLACED.get(command, ARCHIVES):
        return KINDS.get(there[:8], "neither empty nor one of symarch's files")
    if new is None or there[:8] not in ARCHIVES:
        return None
    records, fault = good_front(there)
    if fault:
        return "an archive that is damaged"
    content = archive_of(new)
    lost = sum(not (content.holds(it) or it[0] == ADMISSION and covering(it) in content.rets) for it in records)
    records_of = "record" if lost == 1 else "records"
    return f"has {lost} {records_of} that the new archive neither has nor retires" if lost else None


def out_fault(folder: Folder, plan: Plan, new: Optional[bytes]) -> Optional[str]:
    """What stops OUT, if something does: at its first byte, or when the new bytes are whole."""
    if plan.one["out"] == "/dev/full":
        return "failed after 0 bytes"
    path = plan.one["out"][1:]
    name, number = folder.resolve(path)
    if number is None:
        return "cannot create" if "/" in name or path in folder.names else None
    if number in [folder.resolve(it[1:])[1] for it in plan.inputs()]:
        return "cannot create"
    return "cannot replace" if obstacle(plan.command, folder.files[number], new) else None


def run_program(folder: Folder, words: str, most: int) -> List[str]:
    """The lines of a command over files of the system."""
    plan = Plan(words_of(words))

    def open_source(path: str) -> Optional[Source]:
        if not path.startswith("@"):
            raise Copy
        content = folder.read(path[1:])
        return None if content is None else Source(content)

    left = run_plan(plan, open_source, Limits(report=most))
    new = None if left.is_draft else left.out
    fault = out_fault(folder, plan, new) if left.out else None
    if fault:
        there = folder.read(plan.one["out"][1:]) if fault == "cannot replace" else None
        why = obstacle(plan.command, there, new) if there is not None else None
        return [f"  symarch: output: {fault}", *second_line(plan, f"output: {fault}", folder, why), "  status 2"]
    if not left.is_draft:
        folder.put(plan.one["out"][1:], left.out)
    # OUT is a file of the system: its length and digest are not told.
    lines = left_lines(Left(left.end, b"", left.report))
    if left.end.kind == "refused":
        lines[-1:-1] = second_line(plan, left.end.text, folder)
    elif left.end.kind == "done":
        lines[-1:-1] = [f"  note: {it}" for it in left.notes]
    return lines


# ---- a text of cases


class Held(NamedTuple):
    """What holds for the next command or call: its limits, what is swept, and whether memory may be wanting."""

    limits: Limits = Limits()
    sweep: str = ""
    memory: bool = False


class Bench:
    """The files of a text of cases, those of its folder, and what holds for the next line."""

    def __init__(self) -> None:
        self.store: Store = {}
        self.folder = Folder()
        self.held = Held()

    def line(self, line: str, old: Sequence[str]) -> List[str]:
        """The lines after a line, as the model has them; raises Copy where it has none."""
        if not line or line.startswith(("#", "= ")):
            return []
        verb, _, words = line.partition(" ")
        if verb in LINES:
            return LINES[verb](self, words)
        if verb in COPIED:
            if verb not in KEEPING:
                self.held = Held()
            raise Copy
        return self.command(verb, words, old)

    # ---- files

    def line_file(self, words: str) -> List[str]:
        name, parts = first_word(words)
        self.store[name] = parts_bytes(self.store, parts)
        return [f"  {len(self.store[name])} bytes"]

    def line_line(self, words: str) -> List[str]:
        name, _, text = words.partition(" ")
        self.store[name] = self.store.get(name, b"") + text.encode() + b"\n"
        return [f"  {len(self.store[name])} bytes"]

    def line_same(self, words: str) -> List[str]:
        name, parts = first_word(words)
        one, other = named(self.store, name), parts_bytes(self.store, parts)
        if one == other:
            return [f"  yes, {len(one)} bytes"]
        differ = (place for place, (a, b) in enumerate(zip(one, other)) if a != b)
        return [f"  NO, they differ at {next(differ, min(len(one), len(other)))}"]

    def line_lay(self, words: str) -> List[str]:
        for name in words_of(words):
            self.folder.write(name, named(self.store, name))
        return []

    def line_fetch(self, words: str) -> List[str]:
        name = first_word(words)[0]
        content = self.folder.read(name)
        if content is None:
            return ["  not there"]
        self.store[name] = content
        return [f"  {len(content)} bytes"]

    def line_link(self, words: str) -> List[str]:
        self.folder.link(*words.split(" "))
        return []

    # ---- what holds for the next line

    def line_hold(self, words: str) -> List[str]:
        what, value = words.split(" ", 1)
        if what in ("cut", "read"):
            name, place = value.split(" ")
            self.held = self.held._replace(limits=self.held.limits.but(**{what: (name, int(place))}))
        elif what in ("out", "report", "opened", "places"):
            self.held = self.held._replace(limits=self.held.limits.but(**{what: int(value)}))
        elif what in ("growths", "bytes"):
            self.held = self.held._replace(memory=True)
        return []

    def line_each(self, words: str) -> List[str]:
        self.held = self.held._replace(sweep=words)
        return []

    # ---- commands and calls

    def line_unread(self, words: str) -> List[str]:
        text, status = {"text": ("invalid word: expected UTF-8 text", 3), "memory": ("out of memory", 4)}[words]
        return [f"  symarch: {text}", f"  status {status}"]

    def line_program(self, words: str) -> List[str]:
        most = self.held.limits.report
        self.held = self.held._replace(limits=Limits())
        return run_program(self.folder, words, most)

    def carry(self, verb: str, words: str, limits: Limits) -> Tuple[Left, Optional[Plan]]:
        """What a command or a call leaves, and the plan of a command."""
        if verb != "run":
            return carried(verb, words, self.store, limits), None
        plan = Plan(words_of(words) if words != "-" else [])
        paths = plan.inputs()

        def open_source(path: str) -> Optional[Source]:
            if paths.index(path) >= limits.opened:
                raise NoMemory
            return limits.source(self.store, path)

        return run_plan(plan, open_source, limits), plan

    def command(self, verb: str, words: str, old: Sequence[str]) -> List[str]:
        if verb == "run":
            # Words that are not told here leave the limits to the next line.
            Plan(words_of(words) if words != "-" else [])
        held, self.held = self.held, Held()
        if held.sweep == "growth":
            self.carry(verb, words, held.limits)
            raise Copy
        if held.sweep:
            return self.sweep_lines(held.sweep, verb, words, held.limits)
        left, plan = self.carry(verb, words, held.limits)
        out = plan.one.get("out") if plan else None
        if held.memory and any("OutOfMemory" in it or "out of memory" in it for it in old):
            if plan is None or plan.command != "new" or out is None:
                raise Copy
            self.store[out] = left.out
            return [f"  draft {text_line(left.out)}", *old[1:]]
        if left.out and out is not None:
            self.store[out] = left.out
        return left_lines(left)

    def sweep_lines(self, sweep: str, verb: str, words: str, limits: Limits) -> List[str]:
        """What comes of a command at each place at which it can be stopped; places with one outcome share a line."""
        whole, _ = self.carry(verb, words, limits)
        what, _, name = sweep.partition(" ")
        groups: List[Tuple[int, int, str]] = []
        for place in range(self.last_place(what, name, whole) + 1):
            stops = {"cut": (name, place), "read": (name, place), "pieces": None}.get(what, place)
            limited = limits if what == "pieces" else limits.but(**{what: stops})
            left = whole if what == "pieces" else self.carry(verb, words, limited)[0]
            text = outcome(place, left, whole)
            if groups and groups[-1][2] == text:
                groups[-1] = (groups[-1][0], place, text)
            else:
                groups.append((place, place, text))
        return [f"  {a}: {text}" if a == b else f"  {a} to {b}: {text}" for a, b, text in groups]

    def last_place(self, what: str, name: str, whole: Left) -> int:
        if what == "pieces":
            return int(name)
        if what in ("cut", "read"):
            return len(named(self.store, name)) + (what == "read")
        return len(whole.out if what == "out" else whole.report)


LINES: Dict[str, Callable[[Bench, str], List[str]]] = {
    **{"file": Bench.line_file, "line": Bench.line_line, "same": Bench.line_same, "lay": Bench.line_lay},
    **{"fetch": Bench.line_fetch, "link": Bench.line_link, "hold": Bench.line_hold, "each": Bench.line_each},
    **{"unread": Bench.line_unread, "program": Bench.line_program},
}


def text_of(data: pathlib.Path, subject: str) -> str:
    """The text of a subject, with what it uses."""
    found = []
    for line in (data / "cases" / subject).read_text(encoding="utf-8").splitlines(keepends=True):
        is_use = line.startswith("use ")
        found.append((data / "shared" / line[4:].rstrip("\n")).read_text(encoding="utf-8") if is_use else line)
    return "".join(found)


def cases_of(text: str) -> Dict[str, List[Line]]:
    """The blocks of each case by its name, in their order; those above the first one have the name ''."""
    found: Dict[str, List[Line]] = {"": []}
    name = ""
    for line in text.split("\n")[:-1]:
        if line.startswith("  "):
            found[name][-1][1].append(line)
            continue
        if line.startswith("= "):
            name = line[2:]
            if name in found:
                raise Bad(f"two cases have one name, {name}")
            found[name] = []
        found[name].append((line, []))
    return found
