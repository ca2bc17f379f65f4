"""symbolicate-report with names of C++, Swift and Rust, and their demanglers."""
import os
import re
import shutil
import struct
from typing import Dict, List, Sequence, Tuple

from .support.reports import ReportCase, program

NAMES = (b"__ZN5spool4copyEv", b"_$s5spool4copyyyF", b"_plain", b"-[Spool copy:]", b"no_underscore", b"__two")
# The same without their first underscore, which is all that happens to a name without a demangler.
STRIPPED = ["_ZN5spool4copyEv", "$s5spool4copyyyF", "plain", "-[Spool copy:]", "no_underscore", "_two"]

# Names without that underscore, and what each demangler of C++ makes of them.
SPELLED = {
    "_ZN5spool4copyEv": "spool::copy()",
    "_ZN5spool4copyEv.cold.1": "spool::copy() (.cold.1)",
    "_ZN5spool4copyEv.constprop.0.isra.1": "spool::copy() (.constprop.0.isra.1)",
    "___ZN5spool4copyEv_block_invoke": "invocation function for block in spool::copy()",
    "___ZN5spool4copyEv_block_invoke_2": "invocation function for block in spool::copy()",
    "___spool_copy_block_invoke": "___spool_copy_block_invoke",
    "_ZZ4mainENKUliE_clEi": "main::'lambda'(int)::operator()(int) const",
    "_ZZZ4mainENKUlvE1_clEvENKUlvE_clEv": "main::'lambda1'()::operator()() const::'lambda'()::operator()() const",
    "_ZNSt3__16vectorINS_4pairIiDnEENS_9allocatorIS2_EEE5clearEv":
        "std::__1::vector<std::__1::pair<int, std::nullptr_t>, "
        "std::__1::allocator<std::__1::pair<int, std::nullptr_t>>>::clear()",
    "_ZN12_GLOBAL__N_14spinEv": "(anonymous namespace)::spin()",
    "_RNvC5spool4copy": "spool::copy",
    "-[Spool copy:]": "-[Spool copy:]",
    "main": "main",
}


def image_of(names: Sequence[bytes]) -> bytes:
    """An image for x86_64 of a function of 16 bytes for each name, in this order."""
    strings = b"\0" + b"".join(name + b"\0" for name in names)
    front, size, text = 32 + 152 + 24 + 24, 16 * len(names), 0x100000000
    section = struct.pack("<16s16sQQI28x", b"__text", b"__TEXT", text, size, front)
    segment = struct.pack("<II16sQQQQ8xI4x", 0x19, 152, b"__TEXT", text, 4096, 0, 4096, 1) + section
    at = front + 16 * len(names)
    symtab = struct.pack("<6I", 2, 24, front, len(names), at, len(strings))
    header = struct.pack("<IIIIIIII", 0xFEEDFACF, 0x01000007, 3, 2, 3, front - 32, 0, 0)
    uuid = struct.pack("<II", 0x1B, 24) + bytes(range(16))
    places, entries = 1, b""
    for number, name in enumerate(names):
        entries += struct.pack("<IBBHQ", places, 0x0E, 1, 0, text + 16 * number)
        places += len(name) + 1
    return header + segment + uuid + symtab + entries + strings


class Demangling(ReportCase):
    """Names of C++ and of Swift, of C and of Objective-C, by the demanglers that stand in PATH."""

    def setUp(self) -> None:
        super().setUp()
        self.make(NAMES)

    def make(self, names: Sequence[bytes]) -> None:
        """Makes a crash with a frame in each function of an image, and its archive."""
        self.archive = self.folder / "names.sym"
        program("admit", self.archives / "empty", self.archive, self.file("image", image_of(names)))
        addresses = enumerate(0x10000 + 16 * number + 4 for number in range(len(names)))
        lines = "".join(f"{number} x 0x{address:x} 0x10000 + 1\n" for number, address in addresses)
        images = f"Binary Images:\n0x10000 - 0x1ffff x <{bytes(range(16)).hex()}> /x\n"
        self.crash = self.file("crash", f"Code Type: X86-64\nThread 0:\n{lines}{images}")

    def names(self, out: bytes) -> List[str]:
        """The names of the frames of a crash; the offset is that of the frame, the fifth byte of its function."""
        return re.findall(r"^[0-9]+ x 0x[0-9a-f]+ (.*) \+ 4$", out.decode(), re.M)

    def demangled(
        self, wanted: Sequence[str], note: str = "", others: Sequence[str] = (), words: Sequence[str] = ("--demangle",),
        **demanglers: str
    ) -> str:
        """Fails where others come of these demanglers, something else is said, or one is called more than once; or
        where one of the others is called at all. Returns the last line."""
        # The shell and what its scripts call stand in this folder alone.
        tools = self.folder / "tools"
        tools.mkdir()
        for tool in ("sed", "head", "sh", "echo", "cat"):
            (tools / tool).symlink_to(shutil.which(tool) or "")
        for name, body in {**dict.fromkeys(others, "cat"), **demanglers}.items():
            self.script(f"demanglers/{name.replace('_', '-')}", f'echo >>"{self.folder}/{name}"\n{body}')
        both = f"{self.folder / 'demanglers'}:{tools}"
        came = self.report(*words, self.crash, self.archive, environment={"PATH": both})
        self.assertEqual((came.status, self.names(came.out)), (0, list(wanted)))
        self.assertEqual(came.error_lines[:-1], [f"symbolicate-report: {note}"] if note else [])
        for name in demanglers:
            self.assertEqual((self.folder / name).read_text(), "\n", f"calls of {name}")
        self.assertEqual([name for name in others if (self.folder / name).exists()], [], "calls of others")
        return came.error_lines[-1]

    cxx = "sed 's/^_ZN5spool4copyEv$/spool::copy()/'"
    swift = "sed 's/^$s5spool4copyyyF$/spool.copy() -> ()/'"

    def test_not_asked_for(self) -> None:
        """One underscore is dropped, as Apple's reports have names."""
        self.assertEqual(self.names(self.report("--no-demangle", self.crash, self.archive).out), STRIPPED)

    def test_by_default(self) -> None:
        """If a demangler is there; if none is, nothing is said."""
        self.demangled(["spool::copy()", *STRIPPED[1:]], words=[], llvm_cxxfilt=self.cxx)
        shutil.rmtree(self.folder / "demanglers")
        shutil.rmtree(self.folder / "tools")
        self.demangled(STRIPPED, words=[])

    def test_no_name_needs_one(self) -> None:
        """Then none is called."""
        self.archive.unlink()
        self.make([b"_plain", b"-[Spool copy:]", b"_Read", b"_Test"])
        self.demangled(["plain", "-[Spool copy:]", "Read", "Test"], others=["llvm_cxxfilt", "swift"])

    def test_raw(self) -> None:
        came = self.report("--raw", self.crash, self.archive)
        self.assertEqual((came.status, self.names(came.out)), (0, [name.decode() for name in NAMES]))

    def test_both(self) -> None:
        wanted = ["spool::copy()", "spool.copy() -> ()", *STRIPPED[2:]]
        self.demangled(wanted, llvm_cxxfilt=self.cxx, swift=self.swift)

    def test_swift_alone(self) -> None:
        self.demangled([STRIPPED[0], "spool.copy() -> ()", *STRIPPED[2:]], swift=self.swift)

    def test_cxx_alone(self) -> None:
        self.demangled(["spool::copy()", *STRIPPED[1:]], llvm_cxxfilt=self.cxx)

    def test_what_swift_is_needed_for(self) -> None:
        """It is said once which program is lacking, whatever else is there, and not if it is there or none needs it."""
        left = "; names of Swift stay as they are: install Swift, whose `swift demangle` makes them readable"
        tried: List[Tuple[List[str], Dict[str, str], bool]] = [
            ([], {"llvm_cxxfilt": self.cxx}, True), (["--demangle"], {"c++filt": self.cxx}, True), ([], {}, True),
            ([], {"swift": self.swift, "llvm_cxxfilt": self.cxx}, False), (["--no-demangle"], {}, False),
        ]  # fmt: skip
        for words, demanglers, is_said in tried:
            with self.subTest(f"{words} {[*demanglers]}"):
                wanted = ["spool::copy()" if "llvm_cxxfilt" in demanglers or "c++filt" in demanglers else STRIPPED[0],
                          "spool.copy() -> ()" if "swift" in demanglers else STRIPPED[1], *STRIPPED[2:]]  # fmt: skip
                last = self.demangled(wanted, words=words, **demanglers)
                self.assertEqual((last.count(left), last.endswith(left)), (is_said, is_said), last)
                for it in [self.folder / "demanglers", self.folder / "tools"]:
                    shutil.rmtree(it, ignore_errors=True)
                for name in demanglers:
                    (self.folder / name).unlink()

    def test_names_of_swift(self) -> None:
        """Those of each version since 4 are, as docs/ABI/Mangling.rst of Swift has them; names of C are none."""
        for name, is_swift in (
            (b"_$s5spool4copyyyF", True), (b"_$S5spool4copyyyF", True), (b"_$e5spool4copyyyF", True),
            (b"__T05spool4copyyyF", True), (b"_Test", False), (b"__Test", False), (b"_$tart", False), (b"_T0", False),
        ):  # fmt: skip
            self.archive.unlink()
            self.make([name])
            last = self.report(self.crash, self.archive, environment={"PATH": str(self.folder)}).error_lines[-1]
            self.assertEqual("install Swift" in last, is_swift, name)

    def test_one_fails(self) -> None:
        wanted, note = ["spool::copy()", *STRIPPED[1:]], "swift demangle failed: it demangles no names"
        self.demangled(wanted, note, swift="sed s/^/x/; exit 1", llvm_cxxfilt=self.cxx)

    def test_one_prints_less(self) -> None:
        self.demangled(STRIPPED, "llvm-cxxfilt -n failed: it demangles no names", llvm_cxxfilt="sed 1d")

    def test_neither(self) -> None:
        note = "neither swift nor c++filt nor llvm-cxxfilt is there: names are not demangled"
        self.demangled(STRIPPED, note)

    def test_the_greatest_version(self) -> None:
        wanted = ["spool::copy()", *STRIPPED[1:]]
        self.demangled(wanted, others=["llvm_cxxfilt_9", "llvm_cxxfilt_14x"], llvm_cxxfilt_14=self.cxx)

    def test_llvm_before_its_versions(self) -> None:
        self.demangled(["spool::copy()", *STRIPPED[1:]], others=["llvm_cxxfilt_14"], llvm_cxxfilt=self.cxx)

    def test_gnu_before_llvm(self) -> None:
        """It starts sooner, and one that leaves nothing mangled is the only one that is called."""
        others = ["llvm_cxxfilt", "llvm_cxxfilt_14"]
        self.demangled(["spool::copy()", *STRIPPED[1:]], others=others, **{"c++filt": self.cxx})

    def test_names_that_gnu_leaves(self) -> None:
        self.demangled(["spool::copy()", *STRIPPED[1:]], llvm_cxxfilt=self.cxx, **{"c++filt": "cat"})

    def test_the_same_by_each(self) -> None:
        """Of the commands themselves, as far as they are installed."""
        self.archive.unlink()
        self.make([b"_" + name.encode() for name in SPELLED])
        for command in ("llvm-cxxfilt", "llvm-cxxfilt-14", "c++filt"):
            path = shutil.which(command)
            with self.subTest(command):
                if not path:
                    self.skipTest(f"there is no {command}")
                folder = self.folder / f"only {command}"
                folder.mkdir()
                (folder / command).symlink_to(os.path.realpath(path))
                came = self.report("--demangle", self.crash, self.archive, environment={"PATH": str(folder)})
                self.assertEqual(self.names(came.out), list(SPELLED.values()))
