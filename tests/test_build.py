"""build-program and ./symarch in a repository of four small crates, with a command `rt` that proves nothing: it prints
the output of `rt ci`, and keeps each call by its digest."""
import json
import os
import select
import shutil
import signal
import subprocess
import time
from pathlib import Path
from typing import Any, Dict, List

from .support.cases import TOP, FolderCase
from .support.program import MOST_SECONDS, lines_of

BUILD = "packaging/build-program"
CRATES: Dict[str, List[str]] = {"low": [], "left": ["low"], "right": ["low"], "symarch": ["left", "right"]}
MINUTES = {"low": 2, "left": 10, "right": 3, "symarch": 1}
FROM_NOTHING = "symarch: proving and building the program: twenty to forty-five minutes from nothing on four cores"
NOTHING_TO_DO = "symarch: the program is built, and no source is newer"
WAITS = "symarch: waiting for another run, which proves and builds the program"
BUILT = "symarch: built after 0 min"
# It waits at each crate that is not kept until a file is there, so that what begins meanwhile comes while it runs.
RT = '''#!/usr/bin/env python3
import hashlib, os, sys, time
from pathlib import Path
if sys.argv[1:] == ["version"]:
    print("a kit")
    sys.exit()
room, digest = Path(os.environ["ROOM"]), hashlib.sha256()
(room / "pid").write_text(str(os.getpid()))
with open(room / "calls", "a") as calls:
    calls.write(f"{' '.join(sys.argv[1:])}\\n")
for crate in [line.partition(":")[0] for line in open("crates.txt")]:
    text = Path("crates", crate, "src", "lib.rt").read_text()
    digest.update(text.encode())
    kept = room / digest.hexdigest()
    print(f"== {crate}\\nfn {crate}::one: proved", flush=True)
    if kept.exists():
        print(f"rt: {crate} is kept: it was proved before", flush=True)
        continue
    for _ in range(6000 if "GATE" in os.environ else 0):
        if os.path.exists(os.environ["GATE"]):
            break
        time.sleep(0.05)
    if "wrong" in text:
        print(f"fn {crate}::two: not proved\\nrt: {crate} NOT PROVED", flush=True)
        print("3 passed, 1 failed")
        sys.exit(1)
    kept.touch()
    print(f"rt: {crate} proved", flush=True)
out = Path("crates", "symarch", "out")
out.mkdir()
(out / "symarch").write_text("#!/bin/sh\\necho the program: \\"$@\\"\\n")
(out / "symarch").chmod(0o755)
print("4 passed, 0 failed")
'''


class BuildCase(FolderCase):
    """Cases over a repository of four crates, the two scripts, the command rt, and a cache folder."""

    def setUp(self) -> None:
        super().setUp()
        self.top, self.cache = self.folder / "top", self.folder / "cache"
        for name in CRATES:
            self.file(f"top/crates/{name}/src/lib.rt", f"// {name}\n")
        self.file("top/crates.txt", "".join(f"{name}: {' '.join([*used, 'hex'])}\n" for name, used in CRATES.items()))
        self.file("top/HANDLES", "")
        for path in ("symarch", BUILD, "packaging/crate_list.py", "packaging/proofs.py"):
            self.file(f"top/{path}", (TOP / path).read_bytes()).chmod(0o755)
        self.file("bin/rt", RT).chmod(0o755)
        self.made = self.top / "crates/symarch/out/symarch"
        self.builds, self.gate = self.cache / "symarch/builds.json", self.folder / "gate"

    def begin(self, *words: str, script: str = BUILD, **more: str) -> "subprocess.Popen[bytes]":
        """Begins one of the scripts; `more` is of its environment."""
        path = f"{self.folder}/bin:{os.environ['PATH']}"
        environment = {**os.environ, "PATH": path, "ROOM": str(self.folder), "XDG_CACHE_HOME": str(self.cache), **more}
        streams: Dict[str, Any] = {"stdin": subprocess.DEVNULL, "stdout": subprocess.PIPE, "stderr": subprocess.PIPE}
        return subprocess.Popen([self.top / script, *words], bufsize=0, env=environment, **streams)

    def said_before(self, wanted: str, *runs: "subprocess.Popen[bytes]") -> List[bytes]:
        """What some runs say on standard error until one of them says this, which come to their gate meanwhile."""
        said = {run.stderr: b"" for run in runs if run.stderr}
        while not any(wanted.encode() in it for it in said.values()):
            ready = select.select([*said], [], [], MOST_SECONDS)[0]
            pieces = {it: os.read(it.fileno(), 4096) for it in ready}
            self.assertTrue(any(pieces.values()), said)
            said.update({it: said[it] + piece for it, piece in pieces.items()})
        return [*said.values()]

    def ended(self, run: "subprocess.Popen[bytes]", status: int = 0, out: str = "", before: bytes = b"") -> List[str]:
        """The lines of a run on standard error, some of which were read before, after it has ended so."""
        with run:
            printed, said = run.communicate(timeout=MOST_SECONDS)
        self.assertEqual((run.returncode, printed.decode()), (status, out), said.decode())
        return lines_of(before + said)

    def build(self, first: str, **more: str) -> List[str]:
        """Builds the program, which is as new as its sources then. The first line on standard error is this one."""
        lines = self.ended(self.begin(**more))
        self.assertEqual((lines[0], lines[-1], self.made.exists()), (first, BUILT, True))
        return lines

    def change(self, name: str, text: str) -> None:
        """Gives a crate another source, which is newer than the program."""
        time.sleep(0.02)
        self.file(f"top/crates/{name}/src/lib.rt", text)

    def calls(self) -> int:
        """How often `rt ci` was run since this was last asked."""
        calls = self.folder / "calls"
        said = calls.read_text(encoding="utf-8") if calls.exists() else ""
        calls.write_text("", encoding="utf-8")
        return said.count("ci\n")

    def remembered(self) -> Dict[str, Any]:
        """What is remembered of builds."""
        known: Dict[str, Any] = json.loads(self.builds.read_text(encoding="utf-8"))
        return known

    def remember(self, known: Dict[str, Any]) -> None:
        self.builds.write_text(json.dumps(known), encoding="utf-8")


class Time(BuildCase):
    """What the first line says of the time, as more is known."""

    def test_from_nothing(self) -> None:
        run = self.begin(GATE=str(self.gate))
        (said,) = self.said_before("symarch: 0 of 4 crates proved after 0 min, now low\n", run)
        self.gate.touch()
        lines = self.ended(run, before=said)
        self.assertEqual((lines[0], lines[-1], self.made.exists()), (FROM_NOTHING, BUILT, True))
        self.assertEqual(self.calls(), 1)
        known = self.remembered()
        self.assertEqual({*known["seconds"]}, {*CRATES, "the rest"})
        self.assertEqual(len(known["proved"]), 4)

    def test_nothing_to_do(self) -> None:
        self.build(FROM_NOTHING)
        self.calls()
        self.assertEqual(self.ended(self.begin()), [NOTHING_TO_DO])
        self.assertEqual(self.calls(), 0)

    def test_all_is_kept(self) -> None:
        self.build(FROM_NOTHING)
        self.calls()
        self.made.unlink()
        self.build("symarch: building the program, whose 4 crates are proved: under a minute")
        self.assertEqual(self.calls(), 1)

    def test_by_the_longest_chain_of_what_changed(self) -> None:
        self.build(FROM_NOTHING)
        known = self.remembered()
        known["seconds"] = {name: 60 * took for name, took in MINUTES.items()}
        self.remember(known)
        self.change("right", "// another\n")
        self.build("symarch: proving 2 of 4 crates and building the program: about 4 min")
        self.remember({**known, "proved": []})
        self.made.unlink()
        self.build("symarch: proving and building the program: about 13 min")

    def test_a_file_that_says_nothing(self) -> None:
        self.builds.parent.mkdir(parents=True)
        self.builds.write_text('{"proved": 7}', encoding="utf-8")
        self.build(FROM_NOTHING)

    def test_no_cache_folder(self) -> None:
        self.build(FROM_NOTHING, XDG_CACHE_HOME=str(self.top / "HANDLES"))


class AtOnce(BuildCase):
    """Two at once: one builds, and the other waits for it and finds nothing to do."""

    def both(self, *scripts: str) -> None:
        self.build(FROM_NOTHING)
        self.change("low", "// another\n")
        self.calls()
        gate = str(self.gate)
        runs = [self.begin(*(["word"] if it == "symarch" else []), script=it, GATE=gate) for it in scripts]
        said = self.said_before(WAITS, *runs)
        self.gate.touch()
        outs = {"symarch": "the program: word\n", BUILD: ""}
        ended = [self.ended(run, out=outs[it], before=before) for run, it, before in zip(runs, scripts, said)]
        lines = [line for it in ended for line in it]
        self.assertEqual((self.calls(), lines.count(WAITS), lines.count(NOTHING_TO_DO)), (1, 1, 1), lines)

    def test_two_builds(self) -> None:
        self.both(BUILD, BUILD)

    def test_two_programs(self) -> None:
        self.both("symarch", "symarch")

    def test_a_build_and_a_program(self) -> None:
        self.both(BUILD, "symarch")


class Symarch(BuildCase):
    """./symarch runs the program that is there."""

    def test_a_program_that_is_there(self) -> None:
        self.build(FROM_NOTHING)
        self.calls()
        self.assertEqual(self.ended(self.begin("word", script="symarch"), out="the program: word\n"), [])
        self.assertEqual(self.calls(), 0)

    def test_a_crate_that_is_not_proved(self) -> None:
        self.change("right", "// wrong\n")
        lines = self.ended(self.begin("word", script="symarch"), status=126)
        self.assertEqual(lines[-1], "symarch: could not be built")

    def test_no_rt(self) -> None:
        (self.folder / "bin/rt").unlink()
        for tool in ("dirname", "env", "find", "python3", "realpath", "sh"):
            (self.folder / "bin" / tool).symlink_to(str(shutil.which(tool)))
        lines = self.ended(self.begin(script="symarch", PATH=f"{self.folder}/bin"), status=126)
        self.assertEqual(lines[0], "symarch: there is no command rt")
        self.assertEqual(lines[-1], "symarch: by Python 3.8 or later")

    def test_a_crate_that_it_does_not_stand_on(self) -> None:
        self.build(FROM_NOTHING)
        self.calls()
        with (self.top / "crates.txt").open("a") as file:
            file.write("above: symarch\n")
        os.utime(self.top / "crates.txt", (0, 0))
        self.change("above", "// newer\n")
        (self.folder / "bin/rt").unlink()
        self.assertEqual(self.ended(self.begin("word", script="symarch"), out="the program: word\n"), [])


class NotBuilt(BuildCase):
    """What is left where a crate is not proved, or the run is ended."""

    def test_a_crate_that_is_not_proved(self) -> None:
        self.change("right", "// wrong\n")
        lines = self.ended(self.begin(), status=1)
        self.assertIn("fn right::two: not proved", lines)
        self.assertIn("rt: right NOT PROVED", lines)
        self.is_absent(self.made)

    def test_ended_by_a_signal(self) -> None:
        self.build(FROM_NOTHING)
        self.change("right", "// another\n")
        run = self.begin(GATE=str(self.gate))
        self.said_before("2 of 4 crates proved", run)
        run.send_signal(signal.SIGTERM)
        self.assertEqual(self.ended(run, status=1)[-1], "symarch: interrupted: what was proved is kept")
        pid = (self.folder / "pid").read_text(encoding="utf-8")
        self.assertFalse(Path("/proc", pid).exists(), "rt goes on")
        self.build("symarch: proving 2 of 4 crates and building the program: under a minute")
