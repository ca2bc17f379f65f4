"""What the benchmarks share. The environment variable SYMARCH may name another program than that of this tree, and RUNS
another number of runs than five. With BUSY the seconds of a command are those for which it keeps a processor busy, as
serves on a machine that has other work."""
import os
import pathlib
import random
import resource
import shutil
import statistics
import subprocess
import sys
import tempfile
import time

top = pathlib.Path(__file__).resolve().parents[1]
sys.path[:0] = [str(top), str(top / "packaging")]
from crate_list import CrateList  # noqa: E402
from tests.support.program import symarch as program  # noqa: E402

MEGABYTE = 1_000_000
RUNS = int(os.environ.get("RUNS", 5))
BUSY = bool(os.environ.get("BUSY"))

HEADER = bytes.fromhex("cffaedfe0700000103000000020000000100000018000000" "0000000000000000")
LC_UUID = bytes.fromhex("1b00000018000000")
UUID = bytes.fromhex("00112233445566778899aabbccddeeff")

folder = top / "bench" / "out"
symarch = pathlib.Path(program)


def prepare():
    """Makes the folder of the files, and has the program of this tree built."""
    folder.mkdir(exist_ok=True)
    if not os.environ.get("SYMARCH"):
        subprocess.run([top / "symarch", "--help"], stdout=subprocess.DEVNULL, check=True)


def write_image(file, size, uuid=UUID):
    """Writes an image piece by piece."""
    file.write(HEADER + LC_UUID + uuid)
    left = size - len(HEADER + LC_UUID + uuid)
    while left > 0:
        file.write(random.randbytes(min(left, MEGABYTE)))
        left -= MEGABYTE


def busy_seconds():
    """The seconds for which the commands that ended kept a processor busy."""
    used = resource.getrusage(resource.RUSAGE_CHILDREN)
    return used.ru_utime + used.ru_stime


def run(words, out=None, status=0):
    """The seconds that a command takes, and its peak memory in bytes, which GNU time tells: a child of this process
    counts also what this one has where it forks. What is at OUT is removed, if the command writes it."""
    if out in words:
        out.unlink(missing_ok=True)
    told, clock = folder / "peak", busy_seconds if BUSY else time.monotonic
    start = clock()
    ended = subprocess.run(["time", "-q", "-f", "%M", "-o", told, *words], stdout=subprocess.DEVNULL).returncode
    seconds = clock() - start
    if ended != status:
        sys.exit(f"{words[0]} ended with status {ended}")
    return seconds, int(told.read_text()) * 1024


def medians(*commands, out=None, status=0):
    """Runs commands in turn, and gives of each the medians of its seconds and of its peak memory."""
    rows = [[run(words, out, status) for words in commands] for _ in range(RUNS)]
    return [[statistics.median(column) for column in zip(*runs)] for runs in zip(*rows)]


def busy(words, out):
    """The seconds for which a command keeps a processor busy. What is at OUT is removed first."""
    out.unlink(missing_ok=True)
    before = busy_seconds()
    ended = subprocess.run(words, stdout=subprocess.DEVNULL).returncode
    if ended != 0:
        sys.exit(f"{words[0]} ended with status {ended}")
    return busy_seconds() - before


def least_busy(*commands, out):
    """Runs commands in turn, and gives of each the least of its busy seconds."""
    rows = [[busy(words, out) for words in commands] for _ in range(RUNS)]
    return [min(column) for column in zip(*rows)]


def least(words, runs=RUNS):
    """The first number of each line that a program prints, by the line's name: the least of some runs."""
    rows = []
    for _ in range(runs):
        text = subprocess.run(words, stdout=subprocess.PIPE, check=True, text=True).stdout
        rows.append({words[0]: int(words[1]) for words in map(str.split, text.splitlines())})
    return {name: min(row[name] for row in rows) for name in rows[0]}


def beside_aim(what, value, aim):
    return f"{what} {value:.2f} (aim: at most {aim})"


def compare(name, words, inputs, most_time, most_memory):
    """Runs a command, whose OUT is the word behind IN, and sha256sum on its inputs in turn, and prints their
    medians."""
    (seconds, peak), (digest, _) = medians(words, ["sha256sum", *inputs], out=words[3])
    size = sum(path.stat().st_size for path in inputs)
    times = f"{words[1]} {seconds:.2f} s, sha256sum {digest:.2f} s,"
    print(f"{name}: {times}", beside_aim("ratio", seconds / digest, most_time))
    print(f"{name}: peak memory {peak / MEGABYTE:.0f} MB,", beside_aim("over the inputs", peak / size, most_memory))


def rt(words, at):
    subprocess.run(["rt", *words], cwd=at, stdout=subprocess.DEVNULL, check=True)


def build(name, crates, kit, words):
    """The program of bench/NAME over these crates, those that they stand on and libraries of the kit, proved and built
    where there is none or a source is newer, and then run on the words. It is built by `rt run`, which has LLVM
    optimise it: under `rt try` checks make it hundreds of times as slow. It stands over copies of the crates in a
    folder of its own, since `rt ci` refuses a second crates.txt below the repository, and an .rt file that is no
    crate's."""
    listed = CrateList()
    crates = listed.with_below(crates)
    program, source = folder / name, top / "bench" / name / "main.rattle"
    sources = [source, *(file for crate in crates for file in (top / "crates" / crate / "src").iterdir())]
    if program.exists() and all(file.stat().st_mtime < program.stat().st_mtime for file in sources):
        return program
    for crate in crates:
        rt(["lib"], top / "crates" / crate)
    with tempfile.TemporaryDirectory() as room:
        copies = pathlib.Path(room) / "crates"
        for crate in crates:
            shutil.copytree(top / "crates" / crate, copies / crate, ignore=shutil.ignore_patterns("incremental"))
        place = copies / name
        (place / "src").mkdir(parents=True)
        shutil.copy(source, place / "src" / "main.rt")
        text = listed.text_of(crates) + f"{name}: {' '.join((*crates, *kit))}\n"
        (copies.parent / "crates.txt").write_text(text)
        rt(["run", "--", *words], place)
        shutil.copy(place / "out" / name, program)
    return program
