"""Edits that the prover tries: in a copy of their crate many at a time, in a batch, or one alone."""
import pathlib
import re
import shutil
import subprocess
from dataclasses import dataclass
from typing import Dict, Iterable, Iterator, List, NamedTuple, Optional, Set, Tuple

from edit_texts import TOP, BadEdit, Edit, Function, source
from crate_list import CrateList

# The most edits of a batch, all of which are lost if its check is cut off.
MOST = 24
SAID = re.compile(r"rt: must-fail ([^/:\s]+)/([^:\s]+)\.edit: (.*)")
PROVED = re.compile(r"fn (\S+): proved$")
# A goal that is open, or an error; what is neither; and a proof that names what an edit took away.
GOAL = re.compile(r"(?:note: )?(?:\./)?(\S+?):([0-9]+):[0-9]+: .*")
REMARK = re.compile(r"\S+:[0-9]+:[0-9]+: (note|help|warning): ")
OF_SHAPE = re.compile(r"(note: )?(\./)?proofs/.*(has no field|is not in scope|has no `|was not admitted)")
# A proof that only rests on one that was refused.
RESTS = re.compile(r"not admitted|which was rejected|depends? on a hole")
# What is said of sources that cannot be read.
UNREAD = re.compile(r"\berror\[[\w-]+\]|^(\./)?(src|specs)/\S+: error: ")
ENDED = re.compile(r"only=[0-9]+ proved=[0-9]+|logic=not-proved.*")


class Tried(NamedTuple):
    """An edit of the body of one function, whose name is that which a check prints."""

    edit: Edit
    function: Function
    name: str

    def has(self, line: str) -> bool:
        """Whether a goal is of its function: in it, or in its proof, whose folder has a `+` if it calls itself."""
        found = GOAL.match(line)
        if not found:
            return False
        proof = "/".join(["proofs", *self.name.split("::")[1:], ""])
        return found[1].replace("/+", "/").startswith(proof) or self.function.has(found[1], int(found[2]))


def batches(tries: Iterable[Tried]) -> Iterator[List[Tried]]:
    """The tries by batches, each of which has no function twice."""
    left = [*tries]
    while left:
        batch: Dict[str, Tried] = {}
        for it in left:
            if len(batch) < MOST:
                batch.setdefault(it.name, it)
        yield [*batch.values()]
        left = [it for it in left if batch.get(it.name) is not it]


# ---- what rt says


def result_of(said: str) -> Optional[str]:
    """The result for the table of what rt says of an edit, or None where it was not tried."""
    if said.startswith("NOT REFUSED"):
        return "NOT REFUSED"
    if said.startswith("BAD EDIT"):
        return said.replace("\t", " ")
    if not said.startswith("refused"):
        return None
    if "only because a proof file names" in said:
        return "refused by shape"
    goal = said.partition("as it must be: ")[2].replace("\t", " ")
    return f"refused: {goal}" if goal else "refused"


def results_in(lines: Iterable[str]) -> Dict[str, str]:
    """What the lines of rt say of each edit, by CRATE/EDIT."""
    found = {f"{it[1]}/{it[2]}": result_of(it[3]) for it in map(SAID.match, lines) if it}
    return {key: result for key, result in found.items() if result}


def is_judged(status: int, lines: List[str]) -> bool:
    """Whether a check says of each function whether it is proved, and not all are."""
    return status == 1 and any(map(ENDED.fullmatch, lines)) and not any(map(UNREAD.search, lines))


def result_by(goals: List[str]) -> Optional[str]:
    """The result of an edit whose goals these are; None if there is none."""
    first = next((it for it in goals if not OF_SHAPE.match(it)), "")
    if goals and not first:
        return "refused by shape"
    return f"refused: {first[:160]}".replace("\t", " ") if first else None


# ---- tries


@dataclass
class Room:
    """A copy of a crate, and of those below, which proves it as it stands."""

    top: pathlib.Path
    crate: str
    jobs: int
    # The functions by the names that a check prints, and its lines.
    names: List[str]
    lines: Set[str]

    @classmethod
    def of(cls, crate: str, top: pathlib.Path, jobs: int) -> Optional["Room"]:
        """Its copy in a folder, or None if it is not proved there."""
        found = CrateList(TOP)
        names = found.with_below([crate])
        (top / "crates.txt").write_text(found.text_of(names), encoding="utf-8")
        shutil.copy(TOP / "HANDLES", top)
        left_out = shutil.ignore_patterns("must-fail", "edits", "allowed", "out")
        for name in names:
            shutil.copytree(TOP / "crates" / name, top / "crates" / name, ignore=left_out)
        room = cls(top, crate, jobs, [], set())
        status, lines = room.checked({})
        if status:
            print(f"{crate}: rt check of its sources ended with status {status} and:", *lines[-5:], sep="\n")
            return None
        room.names, room.lines = [it[1] for it in map(PROVED.match, lines) if it], {*lines}
        return room

    def checked(self, texts: Dict[str, str], *names: str) -> Tuple[int, List[str]]:
        """How a check of the crate, or of some functions, ends where some files have other texts, and its lines."""
        folder = self.top / "crates" / self.crate
        words = ["rt", "check", "--jobs", str(self.jobs), *(it for name in names for it in ("--only", name))]
        try:
            for path, text in texts.items():
                (folder / path).write_text(text, encoding="utf-8")
            return said(words, folder)
        finally:
            for path in texts:
                (folder / path).write_text(source(self.crate, path), encoding="utf-8")

    def tried(self, edit: Edit) -> Optional[Tried]:
        """An edit for a batch; None if it has to be tried alone."""
        function = edit.body()
        names = function.among(self.names) if function else []
        return Tried(edit, function, names[0]) if function and len(names) == 1 else None

    def results(self, edits: List[Edit], in_batches: bool) -> Iterator[Dict[str, Optional[str]]]:
        """What comes of edits, some at a time: of batches, and then of those alone of which no batch says it."""
        tries = [self.tried(it) for it in edits] if in_batches else []
        known: Set[str] = set()
        for batch in batches(filter(None, tries)):
            results = self.of_batch(batch)
            known.update(results)
            yield {**results}
        for edit in edits:
            if edit.key not in known:
                yield {edit.key: self.alone(edit)}

    def of_batch(self, batch: List[Tried]) -> Dict[str, str]:
        """The results of the edits of a batch that are refused, if it is believed; otherwise of its halves."""
        if len(batch) < 2:
            return {}
        texts: Dict[str, List[str]] = {}
        for it in batch:
            path, first, end = it.function.path, it.function.first, it.function.end
            text = texts.setdefault(path, source(self.crate, path).split("\n"))
            text[first : end + 1] = it.edit.applied()[path].split("\n")[first : end + 1]
        status, lines = self.checked({path: "\n".join(it) for path, it in texts.items()}, *(it.name for it in batch))
        results, lost = self.shared(batch, lines)
        if status and not (is_judged(status, lines) and not lost):
            print(f"a batch of {len(batch)} is not believed:", *(lost or lines[-1:])[:3], sep="\n  ", flush=True)
            middle = len(batch) // 2
            return {**self.of_batch(batch[:middle]), **self.of_batch(batch[middle:])}
        return results

    def shared(self, batch: List[Tried], lines: List[str]) -> Tuple[Dict[str, str], List[str]]:
        """Which edits of a batch its lines refuse, and the goals that are of none of them."""
        goals = [it for it in self.goals(lines) if not RESTS.search(it)]
        proved = {it[1] for it in map(PROVED.match, lines) if it}
        found = {}
        for it in batch:
            result = result_by([goal for goal in goals if it.has(goal)])
            if result and it.name not in proved:
                found[it.edit.key] = result
        return found, [goal for goal in goals if not any(it.has(goal) for it in batch)]

    def goals(self, lines: Iterable[str]) -> List[str]:
        """The open goals and the errors of a check that the sources as they are have not."""
        return [it for it in lines if GOAL.match(it) and not REMARK.match(it) and it not in self.lines]

    def alone(self, edit: Edit) -> Optional[str]:
        """What comes of an edit: first of its functions alone, and then of the whole crate."""
        try:
            texts = edit.applied()
        except BadEdit as bad:
            return f"BAD EDIT: {bad}"
        names = [name for it in edit.functions() or [] for name in it.among(self.names)]
        choices: List[List[str]] = [names, []] if names else [[]]
        for some in choices:
            status, lines = self.checked(texts, *some)
            result = result_by(self.goals(lines)) if is_judged(status, lines) else None
            if result:
                return result
        return self.by_must_fail(edit)

    def by_must_fail(self, edit: Edit) -> Optional[str]:
        """What `rt must-fail` says of an edit that a check does not refuse."""
        folder = self.top / "crates" / edit.crate / "must-fail"
        folder.mkdir(exist_ok=True)
        path = folder / f"{edit.name}.edit"
        path.write_text(edit.text.strip() + "\n", encoding="utf-8")
        try:
            status, lines = said(["rt", "must-fail", edit.crate], self.top)
        finally:
            path.unlink()
        found = results_in(lines).get(edit.key)
        if not found:
            print(f"{edit.key}: rt must-fail ended with status {status}; its last lines:", *lines[-5:], sep="\n")
        return found


def said(words: List[str], folder: pathlib.Path) -> Tuple[int, List[str]]:
    """How a command ended, and its lines."""
    how = {"stdin": subprocess.DEVNULL, "stdout": subprocess.PIPE, "stderr": subprocess.STDOUT}
    ran = subprocess.run(words, cwd=folder, text=True, errors="replace", **how)  # type: ignore[call-overload]
    return ran.returncode, ran.stdout.splitlines()
