"""Companions with DWARF, for the benchmarks that ask for lines. Clang compiles units of C++ with containers of
libstdc++, whose objects are copied, each time under other names of symbols. A companion has the sections that dsymutil
would write, packed from an ELF file, and its symbols: the large one of seven copies of six units, small ones of one
copy each. The plain one is what dsymutil makes of 48 objects for macOS that are not optimised: of one unit, each time
under other names of its types. Slices of a given size are of such a unit, or of some functions of few bytes."""
import functools
import pathlib
import random
import string
import struct
import subprocess
from concurrent.futures import ThreadPoolExecutor

from measure import folder
from tests.support.llvm import output, tool
from tests.support.made_dsyms import Elf, of_ranges
from tests.support.made_images import uuid_of

UNITS, COPIES, KINDS = 6, 7, 12
LOWEST = 0x1_0000_0000
# The plain one: a character for each of its units.
FILES = (string.digits + string.ascii_letters)[:48]
# Slices of so many bytes are of a unit of so many kinds; shorter ones of functions of so many addresses, whose numbers
# have so many digits more than the first ones.
LEAST_OF_UNIT, KINDS_OF_SLICE, FUNCTION, MOST_OF_NUMBER = 5_000_000, 7, 16, 4
INCLUDES = ("algorithm", "deque", "functional", "map", "memory", "set", "string", "unordered_map", "vector")
# What a unit has of each of its kinds, whose number is K.
KIND = """
struct ItemK {
    std::string name;
    std::vector<long> numbers;
    long weight = 1;
    bool operator<(const ItemK &other) const
    {
        return weight < other.weight || (weight == other.weight && name < other.name);
    }
};

long workK(const std::vector<std::string> &words, long seed)
{
    std::map<std::string, ItemK> by_name;
    std::unordered_map<long, std::shared_ptr<ItemK>> by_number;
    std::set<ItemK> ordered;
    std::deque<ItemK> waiting;
    for (const auto &word : words) {
        auto &item = by_name[word];
        item.name = word;
        item.numbers.push_back(seed + item.weight++);
        by_number.emplace(seed++, std::make_shared<ItemK>(item));
        ordered.insert(item);
        waiting.push_back(item);
    }
    std::function<long(const ItemK &)> rate = [seed](const ItemK &item) {
        long all = seed;
        for (auto number : item.numbers)
            all = all * 31 + number;
        return all;
    };
    std::vector<ItemK> sorted(ordered.begin(), ordered.end());
    std::sort(sorted.begin(), sorted.end(), [&](const ItemK &a, const ItemK &b) { return rate(a) < rate(b); });
    std::stable_sort(waiting.begin(), waiting.end());
    long all = 0;
    for (const auto &item : sorted)
        all += rate(item) + by_number.count(item.weight) + by_name.count(item.name);
    for (const auto &item : waiting)
        all ^= rate(item);
    return all;
}
"""


def source(unit, count=KINDS):
    """The text of a unit of so many kinds."""
    kinds = (KIND.replace("K", f"{unit}_{number}") for number in range(count))
    return "".join(f"#include <{it}>\n" for it in INCLUDES) + "".join(kinds)


def objects(unit, count=COPIES, kinds=KINDS):
    """The object of a unit, so many times, each time under other names of its symbols."""
    place, made = folder / f"unit{unit}.cc", folder / f"unit{unit}.o"
    place.write_text(source(unit, kinds))
    words = ["-target", "x86_64-linux-gnu", "-std=c++17", "-g", "-gdwarf-4", "-gdwarf-aranges", "-O2", "-fPIC"]
    output(tool("clang++"), *words, f"-fdebug-prefix-map={folder}=/src", "-c", place, "-o", made)
    copies = [folder / f"unit{unit}-{number}.o" for number in range(count)]
    for number, copy in enumerate(copies):
        output(tool("llvm-objcopy"), f"--prefix-symbols=c{number}_", made, copy)
    for path in (place, made):
        path.unlink()
    return copies


def linked(copies, number):
    """The companion of some objects, which are removed."""
    image = folder / "lines.so"
    subprocess.run([tool("ld.lld"), "-shared", f"--image-base={LOWEST:#x}", "-o", image, *copies], check=True)
    elf = Elf(image)
    for file in (*copies, image):
        file.unlink()
    # The names as they were before `c0_` and the like came before them.
    elf.functions = [(name[:1] + name[len("_c0_") :], value) for name, value in elf.functions]
    return elf.companion("x86_64", number, with_symbols=True)


def large_companion():
    """The path of the large companion, which is made if it is not there: that takes some minutes."""
    path = folder / "lines-large.dsym"
    if not path.exists():
        with ThreadPoolExecutor(4) as threads:
            copies = sum(threads.map(objects, range(UNITS)), [])
        path.write_bytes(linked(copies, 0))
    return path


def for_macos():
    """What clang is told to compile for macOS by the headers of this system, which use two names otherwise."""
    resources = output(tool("clang++"), "-print-resource-dir").decode().strip()
    system = max(pathlib.Path("/usr/include/c++").glob("[0-9]*"), key=lambda it: int(it.name))
    machine = pathlib.Path("/usr/include/x86_64-linux-gnu")
    headers = (system, machine / "c++" / system.name, f"{resources}/include", machine, "/usr/include")
    names = ["-U__nonnull", "-U__nullable", "-D_GNU_SOURCE"]
    return ["-target", "x86_64-apple-macos11", "-nostdinc", "-nostdinc++", *names, *(f"-isystem{it}" for it in headers)]


def plain_objects():
    """The objects of the units for macOS, as `clang -g` makes them. The first is compiled, the others are the same with
    names of the same length: their tables of names are in another order, which dsymutil makes anew."""
    place, made = folder / "plain0.cc", [folder / f"plain{unit}.o" for unit in FILES]
    place.write_text(source(FILES[0]))
    output(tool("clang++"), *for_macos(), "-std=c++17", "-g", "-c", place, "-o", made[0])
    place.unlink()
    content = made[0].read_bytes()
    for unit, path in zip(FILES[1:], made[1:]):
        other = content
        for name in ("Item%s_", "work%s_", "plain%s.cc"):
            other = other.replace((name % FILES[0]).encode(), (name % unit).encode())
        path.write_bytes(other)
    return made


def plain_companion():
    """The path of the plain companion, which is made if it is not there: that takes some minutes."""
    path, image = folder / "lines-plain.dsym", folder / "lines-plain"
    if not path.exists():
        made = plain_objects()
        how = ["-arch", "x86_64", "-platform_version", "macos", "11.0", "11.0", "-undefined", "dynamic_lookup"]
        output(tool("ld64.lld"), *how, "-dylib", "-o", image, *made)
        output(tool("dsymutil"), "-f", "-o", path, image)
        for file in (image, *made):
            file.unlink()
    return path


def small_companions(count):
    """The paths of so many small companions, at most ten, which are made if they are not there."""
    paths = [folder / f"lines-small-{number}.dsym" for number in range(count)]
    if not all(path.exists() for path in paths):
        for number, copy in enumerate(objects(0, count), 1):
            paths[number - 1].write_bytes(linked([copy], number))
    return paths


@functools.lru_cache(maxsize=None)
def unit_companion():
    """The bytes of the companion of a unit of fewer kinds."""
    return linked(objects(0, 1, KINDS_OF_SLICE), 1)


@functools.lru_cache(maxsize=None)
def companion_of(size):
    """A companion of so many bytes: that of a unit if it is as long, else one of functions of 16 addresses. It ends
    with bytes of no section."""
    made = unit_companion() if size >= LEAST_OF_UNIT else functions_companion(size)
    if len(made) > size:
        raise ValueError(f"no companion has {size} bytes")
    random.seed(size)
    return made + random.randbytes(size - len(made))


def functions_companion(size):
    """The companion of as many functions as fit."""
    first, further = len(some_functions(1)), len(some_functions(2)) - len(some_functions(1)) + MOST_OF_NUMBER
    return some_functions(1 + max(size - first, 0) // further)


def some_functions(count):
    """A companion of so many functions that follow one another, with a symbol each."""
    places = [(FUNCTION * number, FUNCTION * (number + 1)) for number in range(count)]
    symbols = [(b"_f%d" % number, LOWEST + first) for number, (first, _) in enumerate(places)]
    return of_ranges([(1, [place]) for place in places], FUNCTION * count, 1, symbols)


def slice_of(number, size):
    """The companion of so many bytes under the UUID of a number."""
    content = companion_of(size)
    return content.replace(uuid_of(content), number.to_bytes(16, "big"), 1)


def offset_in(size):
    """How far an address of a function is behind the base of each slice of so many bytes."""
    sections = sections_in(companion_of(size))
    first, length = max(sections, key=lambda it: it[1])
    return first - min(sections)[0] + length // 2


def sections_of(companion):
    """The address and the size of each section of code of a companion."""
    with companion.open("rb") as file:
        return sections_in(file.read(1 << 16))


def sections_in(front):
    """The same by the first bytes of one."""
    count = struct.unpack_from("<I", front, 32 + 64)[0]
    return [struct.unpack_from("<QQ", front, 32 + 72 + 80 * number + 32) for number in range(count)]


def code_of(companion):
    """The address and the size of the largest section of code of a companion."""
    return max(sections_of(companion), key=lambda it: it[1])


def base_of(companion):
    """The address of the segment of the code."""
    return min(sections_of(companion))[0]
