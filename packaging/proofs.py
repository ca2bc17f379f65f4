"""What a run of `rt ci` has proved, and what earlier builds of this user have."""
import hashlib
import json
import os
import subprocess
import sys
import threading
import time
from pathlib import Path
from typing import Any, Callable, Dict, Iterable, List, Optional

from crate_list import CrateList

PROVED, KEPT = " proved", " is kept: "
# How far it is stands there again after so many seconds in which nothing was proved.
MOST_SECONDS = 60
# How long it takes if most crates have to be proved that were not proved before.
FROM_NOTHING = "twenty to forty-five minutes from nothing on four cores"
# What `rt ci` takes after the last proof: the name of its seconds, and how many they are if that is not known.
REST, REST_SECONDS = "the rest", 20
# How many digests are remembered.
MOST_DIGESTS = 2000


def digests_of(root: Path, crates: Iterable[str], listed: CrateList) -> Dict[str, str]:
    """The digest of each crate: of all that its proof reads, and of the toolchain."""
    quiet: Dict[str, Any] = {"stdin": subprocess.DEVNULL, "stderr": subprocess.DEVNULL}
    version = subprocess.run(["rt", "version"], stdout=subprocess.PIPE, check=False, **quiet).stdout
    found: Dict[str, str] = {}
    for name in crates:
        digest = hashlib.sha256(version)
        digest.update("\0".join([*listed.lines[name], *(found[it] for it in listed.uses[name])]).encode())
        for file in sorted(it for it in (root / "crates" / name).rglob("*") if it.is_file()):
            content = hashlib.sha256(file.read_bytes()).hexdigest()
            digest.update(f"\0{file.relative_to(root)}\0{content}".encode())
        found[name] = digest.hexdigest()
    return found


class Builds:
    """What earlier builds of this user have proved, and how long it took: a file, on which nothing depends but what is
    said of the time. If it cannot be read nothing is known, and if it cannot be written nothing is added."""

    def __init__(self, program: str) -> None:
        folder = os.environ.get("XDG_CACHE_HOME", "")
        cache = folder if os.path.isabs(folder) else os.path.expanduser("~/.cache")
        self.file = Path(cache) / program / "builds.json"
        self.proved: List[str] = []
        self.seconds: Dict[str, float] = {}
        self.read()

    def read(self) -> None:
        """Reads the digests of what was proved, and the seconds that each crate took last, and what is beside them."""
        try:
            told = json.loads(self.file.read_text(encoding="utf-8"))
            self.proved = [str(it) for it in told["proved"]]
            self.seconds = {name: float(took) for name, took in told["seconds"].items() if 0 <= took < 86400}
        except (OSError, ValueError, TypeError, KeyError, AttributeError):
            self.proved, self.seconds = [], {}

    def add(self, name: str, took: Optional[float] = None, digest: Optional[str] = None) -> None:
        """Notes what a crate took, if it was proved now, and that it is proved."""
        # Another build may have written since.
        self.read()
        if took is not None:
            self.seconds[name] = round(took, 1)
        if digest is not None:
            self.proved = [*(it for it in self.proved if it != digest), digest][-MOST_DIGESTS:]
        part = self.file.with_name(f"{self.file.name}.{os.getpid()}")
        try:
            self.file.parent.mkdir(parents=True, exist_ok=True)
            part.write_text(json.dumps({"proved": self.proved, "seconds": self.seconds}, indent=0), encoding="utf-8")
            part.replace(self.file)
        except OSError:
            pass

    def what_is_left(self, crates: List[str], uses: Dict[str, List[str]], digests: Dict[str, str]) -> str:
        """How many crates are to be proved, and how long that and the rest take, in words. What others have proved for
        the toolchain, as the gate does, is not known here."""
        left = [it for it in crates if digests[it] not in self.proved]
        known = [self.seconds[it] for it in crates if it in self.seconds]
        if not left:
            what = f"building the program, whose {len(crates)} crates are proved"
        elif len(left) < len(crates):
            what = f"proving {len(left)} of {len(crates)} crates and building the program"
        else:
            what = "proving and building the program"
        if left and len(known) < len(crates) / 2:
            return f"{what}: {FROM_NOTHING}"
        done: Dict[str, float] = {}
        for name in crates:
            took = self.seconds.get(name, sum(known) / len(known)) if name in left else 0
            done[name] = took + max((done[it] for it in uses[name]), default=0)
        minutes = round((max(done.values()) + self.seconds.get(REST, REST_SECONDS)) / 60)
        return f"{what}: about {minutes} min" if minutes else f"{what}: under a minute"


class Proofs:
    """What `rt ci` has said of the crates so far."""

    def __init__(
        self,
        crates: List[str],
        uses: Dict[str, List[str]],
        digests: Dict[str, str],
        builds: Builds,
        say: Callable[[str], None],
    ) -> None:
        self.crates, self.uses, self.digests, self.builds, self.say = crates, uses, digests, builds, say
        # By the crate: after how many seconds it was proved.
        self.proved: Dict[str, float] = {}
        # What was said of the last crate, but for what is well.
        self.section: List[str] = []
        self.news = threading.Event()
        self.news.set()
        self.began = time.monotonic()

    def seconds(self) -> float:
        return time.monotonic() - self.began

    def minutes(self) -> int:
        return int(self.seconds() / 60)

    def note(self, name: str, is_kept: bool) -> None:
        """Notes that a crate is proved now. It could be proved as soon as those that it stands on were."""
        self.proved[name] = self.seconds()
        ready = max((self.proved.get(it, 0) for it in self.uses[name]), default=0)
        self.builds.add(name, None if is_kept else self.proved[name] - ready, self.digests[name])
        self.news.set()

    def note_the_rest(self) -> None:
        """Notes what the run took after its last proof."""
        self.builds.add(REST, self.seconds() - max(self.proved.values(), default=0))

    def tell(self) -> None:
        """Says how many crates are proved, which can be proved now, and how long it took so far."""
        left = [it for it in self.crates if it not in self.proved]
        now = [it for it in left if all(low in self.proved for low in self.uses[it])]
        if now:
            done = f"{len(self.proved)} of {len(self.crates)} crates proved"
            self.say(f"{done} after {self.minutes()} min, now {', '.join(now)}")

    def tell_while(self, reading: threading.Thread) -> None:
        """Says how far it is when something was proved, and when long nothing was, until all is read. A signal that
        comes right before the wait is answered a second later."""
        told = 0.0
        while reading.is_alive():
            if self.news.wait(1) or self.seconds() - told > MOST_SECONDS:
                self.news.clear()
                self.tell()
                told = self.seconds()

    def show(self) -> None:
        """Shows what was said of the last crate, but for what is well."""
        print(*self.section, sep="\n", file=sys.stderr, flush=True)
        self.section = []

    def take_all(self, lines: Iterable[str]) -> None:
        """Takes all lines of `rt ci`."""
        try:
            for line in lines:
                self.take(line.rstrip("\n"))
        finally:
            self.news.set()

    def take(self, line: str) -> None:
        """Takes a line of `rt ci`. What it says of a crate is shown if that is not proved."""
        rt, _, said = line.partition(" ")
        name, _, what = said.partition(" ")
        if rt == "==":
            self.section = []
        if not line.startswith("statements ") and not line.endswith(": proved"):
            self.section.append(line)
        if rt != "rt:" or name not in self.crates:
            return
        if f" {what}".startswith((PROVED, KEPT)):
            self.note(name, f" {what}".startswith(KEPT))
        elif what.startswith("NOT PROVED"):
            self.show()
