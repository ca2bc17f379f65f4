"""The names of frames by module and offset, as Mozilla's symbol servers answer them in version 5."""
from __future__ import annotations

import functools
import json
import re
from dataclasses import dataclass, field
from typing import Any, Dict, List, Optional, Sequence, Tuple

from symarch_tools import symbolicate
from symarch_tools.reports.archives import Archives
from symarch_tools.reports.arguments import Options, options_of
from symarch_tools.reports.images import NO_IMAGE, Frames, Image, Images
from symarch_tools.reports.source_lines import NOTHING, Inlined, Source

from .control import OUT, Members
from .jobs import kept_slices

# A UUID, and after it an age, which is 0 for Mach-O.
DEBUG_ID = re.compile("[0-9A-Fa-f]{32}[0-9A-Fa-f]{0,8}")
MOST_FRAMES = 100_000
# The module of an address that is in none.
NO_MODULE = '"<unknown>"'


class BadForm(Exception):
    """What is asked has another form: where, and what is expected there."""


@dataclass(eq=False)
class Asking:
    """The modules and frames of all jobs, each module once for an architecture that nobody states."""

    images: Images = field(default_factory=Images)

    def __post_init__(self) -> None:
        self.frames = Frames(self.images)

    def take(self, where: str, job: Any) -> "Stacks":
        modules = checked(job, dict, where).get("memoryMap")
        known = [self.module(f"{where}.memoryMap[{at}]", one) for at, one in listed(modules, f"{where}.memoryMap")]
        stacks = listed(job.get("stacks"), f"{where}.stacks")
        return Stacks(known, [self.stack(f"{where}.stacks[{at}]", one, known) for at, one in stacks])

    def module(self, where: str, said: Any) -> Tuple[str, str, int]:
        """A module: its name, its debug id, and the number of its image."""
        if not isinstance(said, list) or len(said) != 2 or not all(isinstance(it, str) for it in said):
            raise BadForm(f"{where}: expected [NAME, DEBUG ID]")
        name, debug_id = said
        number = self.images.number(debug_id[:32], None, name) if DEBUG_ID.fullmatch(debug_id) else NO_IMAGE
        return name, debug_id, number

    def stack(self, where: str, said: Any, known: List[Tuple[str, str, int]]) -> List[Tuple[int, int]]:
        return [self.frame(f"{where}[{at}]", one, known) for at, one in listed(said, where)]

    def frame(self, where: str, said: Any, known: List[Tuple[str, str, int]]) -> Tuple[int, int]:
        """A frame: the index of its module, and its own number among all."""
        if not isinstance(said, list) or len(said) != 2 or not all(type(it) is int for it in said):
            raise BadForm(f"{where}: expected [MODULE INDEX, OFFSET]")
        index, offset = said
        if not -1 <= index < len(known):
            raise BadForm(f"{where}: there is no module {index}")
        at = len(self.frames)
        if at == MOST_FRAMES:
            raise BadForm(f"{where}: expected {MOST_FRAMES} frames at most")
        number = known[index][2] if index >= 0 else NO_IMAGE
        self.frames.add(at, number, offset, 0)
        self.frames.put(at, number, offset if 0 <= offset < 2**64 else -1)
        return index, at


@dataclass(frozen=True)
class Stacks:
    """The modules and stacks of a job."""

    modules: List[Tuple[str, str, int]]
    stacks: List[List[Tuple[int, int]]]

    def found_modules(self, images: Images) -> Dict[str, Optional[bool]]:
        """Whether the archive has each module that has a frame."""
        found: Dict[str, Optional[bool]] = {f"{name}/{debug_id}": None for name, debug_id, _ in self.modules}
        for index in {index for stack in self.stacks for index, _ in stack if index >= 0}:
            name, debug_id, number = self.modules[index]
            image = images.listed[number] if number != NO_IMAGE else None
            found[f"{name}/{debug_id}"] = bool(image and image.answers)
        return found


@dataclass(eq=False)
class Writing:
    """Writes answers as JSON. What several frames have, as the functions that are inlined there, is made once."""

    frames: Frames
    offsets: List[int]
    named: int = 0

    def __post_init__(self) -> None:
        self.text = functools.lru_cache(maxsize=MOST_FRAMES)(json.dumps)
        self.inlined = functools.lru_cache(maxsize=MOST_FRAMES)(self.inlined_once)

    def results(self, jobs: Sequence[Stacks]) -> str:
        return f'{{"results": [{", ".join(map(self.result, jobs))}]}}'

    def result(self, job: Stacks) -> str:
        modules = [self.text(name) for name, _, _ in job.modules]
        stacks = ", ".join(self.stack(stack, modules) for stack in job.stacks)
        return f'{{"stacks": [{stacks}], "found_modules": {json.dumps(job.found_modules(self.frames.images))}}}'

    def stack(self, stack: Sequence[Tuple[int, int]], modules: Sequence[str]) -> str:
        rows = ((place, modules[index] if index >= 0 else NO_MODULE, at) for place, (index, at) in enumerate(stack))
        return f'[{", ".join(self.frame(*row) for row in rows)}]'

    def frame(self, place: int, module: str, at: int) -> str:
        symbol, lines = self.frames.name(at), NOTHING
        made = f'"frame": {place}, "module": {module}, "module_offset": "{self.offsets[at]:#x}"'
        if symbol is not None:
            self.named += 1
            lines = self.frames.lines(at)
            made += f', "function": {self.text(symbol[0])}, "function_offset": "{symbol[1]:#x}"'
        inlined = f', "inlines": [{", ".join(map(self.inlined, lines.inlined))}]' if lines.inlined else ""
        return f"{{{made}{self.source(lines.source)}{inlined}}}"

    def source(self, source: Optional[Source]) -> str:
        return f', "file": {self.text(source.file)}, "line": {source.line}' if source else ""

    def inlined_once(self, one: Inlined) -> str:
        return f'{{"function": {self.text(one.name or "???")}{self.source(one.source)}}}'


def checked(said: Any, kind: type, where: str) -> Any:
    if not isinstance(said, kind):
        raise BadForm(f"{where}: expected {'an object' if kind is dict else 'a list'}")
    return said


def listed(said: Any, where: str) -> List[Tuple[int, Any]]:
    if len(checked(said, list, where)) > MOST_FRAMES:
        raise BadForm(f"{where}: expected {MOST_FRAMES} at most")
    return list(enumerate(said))


def profile(job: Members, _: List[int]) -> Members:
    """The results of the jobs in a file of the room, which is JSON."""
    try:
        with open(job["name"], "rb") as file:
            asked = checked(json.load(file), dict, "the body")
        asking = Asking()
        jobs = listed(asked["jobs"], "jobs") if "jobs" in asked else [(0, asked)]
        stacks = [asking.take(f"jobs[{at}]" if "jobs" in asked else "the body", one) for at, one in jobs]
    except BadForm as fault:
        return {"status": 3, "bad": str(fault)}
    except (ValueError, RecursionError) as error:
        return {"status": 3, "bad": f"the body is no JSON: {error}"}
    archives, images = Archives([job["archive"]], True, True), asking.images.with_frames()
    state_architectures(images, job["archive"])
    archives.look_up(images)
    symbolicate.show_names(options_of_names(job["archive"]), archives.names, archives.chains.names)
    writing = Writing(asking.frames, list(asking.frames.asked))
    with open(OUT, "w", encoding="utf-8", errors="replace") as made:
        made.write(writing.results(stacks))
    return {"status": 0, "named": writing.named, "every": len(asking.frames)}


def state_architectures(images: Sequence[Image], archive: str) -> None:
    """Gives each image the architecture under which an archive has its UUID, if that is one alone: the program is asked
    for this one, and not for each that there is."""
    kept = kept_slices([image.uuid for image in images], archive)
    found = kept.architectures() if kept.is_known else {}
    for image in images:
        archs = found.get(image.uuid, [])
        image.arch = archs[0] if len(archs) == 1 else None


@functools.lru_cache(maxsize=None)
def options_of_names(archive: str) -> Options:
    """Options by which names are shown as symbolicate-report shows them."""
    return options_of(["-", archive])
