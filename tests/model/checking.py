"""The cases of `test_acceptance` beside what the model computes. Texts of the command line, calls on images alone and
numbers of refused growths are left as they stand."""
from typing import List, NamedTuple, Tuple

from ..support.program import TOP
from . import cases

DATA = TOP / "crates" / "test_acceptance" / "data"


class Difference(NamedTuple):
    """A line of a case whose outcome is another one by the model: what stands there, and what came."""

    case: str
    line: str
    stands: List[str]
    came: List[str]

    def __str__(self) -> str:
        less = [f"  - {it[:200]}" for it in self.stands if it not in self.came]
        more = [f"  + {it[:200]}" for it in self.came if it not in self.stands]
        return "\n".join([f"{self.case}: {self.line[:300]}", *less, *more])


class Checked(NamedTuple):
    """What came of cases: the differences, how many lines the model has, and how many are left as they stand."""

    differences: List[Difference]
    told: int
    left: int


def subjects() -> List[str]:
    """The names of all subjects."""
    return sorted(it.name for it in (DATA / "cases").iterdir())


def check(word: str) -> Checked:
    """Holds a subject, or a case of it, SUBJECT/CASE, against the model. The cases above it are carried out. Raises
    `cases.Bad` if there is no such case."""
    subject, _, asked = word.partition("/")
    by_name = cases.cases_of(cases.text_of(DATA, subject))
    if len(by_name) == 1 or (asked and asked not in by_name):
        raise cases.Bad("no such case")
    bench, told, left = cases.Bench(), 0, 0
    differences: List[Difference] = []
    for name, lines in by_name.items():
        for line, stands in lines:
            try:
                came = bench.line(line, stands)
            except cases.Copy:
                left += len(stands)
                continue
            told += len(came)
            if came != stands and asked in ("", name):
                differences.append(Difference(f"{subject}/{name}".strip("/"), line, stands, came))
        if asked == name and asked:
            break
    return Checked(differences, told, left)


def blocks(text: str) -> List[Tuple[str, List[str]]]:
    """The lines of a text, each with what has to come of it."""
    found: List[Tuple[str, List[str]]] = []
    for line in text.splitlines():
        if line.startswith("  "):
            found[-1][1].append(line)
        else:
            found.append((line, []))
    return found


def rewritten(subject: str) -> str:
    """The text of a subject with what comes of its lines by the model; what it uses is carried out, and not told."""
    bench, told = cases.Bench(), []
    for line, stands in blocks((DATA / "cases" / subject).read_text(encoding="utf-8")):
        shared = line[len("use ") :] if line.startswith("use ") else None
        text = (DATA / "shared" / shared).read_text(encoding="utf-8") if shared else f"{line}\n"
        came: List[str] = []
        for each, those in blocks(text):
            try:
                came = bench.line(each, stands if not shared else those)
            except cases.Copy:
                came = stands
        told += [line, *([] if shared else came)]
    return "".join(f"{it}\n" for it in told)
