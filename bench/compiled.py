"""Small programs of tests/fixtures/compilers by each compiler that is at hand, as companions: linked for this system,
with the DWARF sections of the ELF file. A compiler that is not there is left out, and is named."""
import pathlib
import shutil
import subprocess
import zlib
from typing import Iterator, List, NamedTuple, Sequence, Tuple

from measure import top
from tests.support.made_dsyms import Elf

SOURCES = top / "tests" / "fixtures" / "compilers"
LEVELS = ("-O0", "-O2")
OF_RUST, OF_NIM = ["rustc", "-g", "-C"], ["nim", "c", "--hints:off", "--debugger:native", "--nimcache:nim"]
# What is told of versions of DWARF.
VERSIONS_OF_C = ("-gdwarf-2", "-gdwarf-3", "-gdwarf-4", "-gdwarf-5")


class Compiled(NamedTuple):
    """A program: its name, the compiler and what it is told, and its source. It is linked as `image`."""

    name: str
    words: Sequence[str]
    source: str

    def build(self, folder: pathlib.Path) -> pathlib.Path:
        """The companion, in a folder of its own."""
        inner = folder / self.name
        inner.mkdir()
        shutil.copy(SOURCES / self.source, inner)
        subprocess.run([*self.words, self.source], cwd=inner, stdout=subprocess.DEVNULL, check=True)
        made = folder / f"{self.name}.dsym"
        made.write_bytes(Elf(inner / "image").companion("x86_64", zlib.crc32(self.name.encode())))
        shutil.rmtree(inner)
        return made


def of_c() -> Iterator[Tuple[str, List[str], str]]:
    """What compilers of C and C++ make: each version of DWARF, and at each level."""
    for compiler, other in (("gcc", "g++"), ("clang-14", "clang++-14"), ("clang-19", "clang++-19")):
        for flag in VERSIONS_OF_C:
            yield f"{compiler}{flag[7:]}-c", [compiler, flag, "-O2", "-o", "image"], "shapes.c"
            yield f"{compiler}{flag[7:]}-cc", [other, flag, "-O2", "-std=c++17", "-o", "image"], "items.cc"
        yield f"{compiler}-c-plain", [compiler, "-g", "-O0", "-o", "image"], "shapes.c"
        yield f"{compiler}-cc-plain", [other, "-g", "-O0", "-std=c++17", "-o", "image"], "items.cc"
        yield f"{compiler}-cc-tables", [other, "-g1", "-O2", "-std=c++17", "-o", "image"], "items.cc"


def of_others() -> Iterator[Tuple[str, List[str], str]]:
    for level in LEVELS:
        yield f"gfortran{level}", ["gfortran", "-g", level, "-o", "image"], "grids.f90"
        yield f"gnat{level}", ["gnatmake", "-q", "-g", level, "-o", "image"], "stacks.adb"
        yield f"gdc{level}", ["gdc", "-g", level, "-o", "image"], "ranges.d"
        yield f"ldc{level}", ["ldc2", "-g", level, "-of=image"], "ranges.d"
        yield f"fpc{level}", ["fpc", "-g", "-gw3", level.replace("0", "-"), "-oimage"], "lists.pas"
        yield f"rust{level}", [*OF_RUST, f"opt-level={level[2:]}", "-o", "image"], "trees.rs"
    yield "rust-4", [*OF_RUST, "opt-level=3", "-C", "dwarf-version=4", "-o", "image"], "trees.rs"
    yield "fpc-2", ["fpc", "-g", "-gw2", "-O2", "-oimage"], "lists.pas"
    yield "go", ["go", "build", "-ldflags=-compressdwarf=false", "-o", "image"], "pages.go"
    yield "go-plain", ["go", "build", "-gcflags=all=-N -l", "-ldflags=-compressdwarf=false", "-o", "image"], "pages.go"
    yield "nim-debug", [*OF_NIM, "-o:image"], "graphs.nim"
    yield "nim-release", [*OF_NIM, "-d:release", "-o:image"], "graphs.nim"
    yield "ocaml", ["ocamlopt", "-g", "-o", "image"], "terms.ml"


def compiled() -> List[Compiled]:
    """The programs whose compilers are at hand."""
    found = [Compiled(*it) for it in (*of_c(), *of_others())]
    missing = {it.words[0] for it in found if not shutil.which(it.words[0])}
    if missing:
        print("not at hand:", *sorted(missing))
    return [it for it in found if it.words[0] not in missing]
