"""A month of reports of a team: signals, copies with names, exceptions, faults of the processor, other architectures,
wrong command lines. Names are those of `llvm-nm`, lines those of `llvm-symbolizer`, and registers those of the crash
reports of macOS 12 and later."""
import json
import re
import uuid
from typing import Any, Dict, List, Sequence, Tuple

from .support import kept_lines
from .support.made_dsyms import companion
from .support.made_images import number_uuid
from .support.reports import CRASHES, FIXTURES, SPOOL, ReportCase, named, program, source

# An image of the system, and the offset of a frame in it.
PLATFORM, IN_PLATFORM = str(uuid.UUID(bytes=number_uuid(7))), 0x38
# A handler of a signal, what calls it, a frame whose address begins the function `spool_one`, and one that called this:
# there a call returns to the same address, and lies in `start`.
HANDLER, INTERRUPTED = 0x410, 0x46C
SPOOL_AT, PLATFORM_AT = 0x104D38000, 0x1A0001000
NAMED = ["copy_body + 12 (spool.c:9)", "_sigtramp + 56", "spool_one + 0 (spool.c:24)", "start + 52 (spool.c:32)"]
LIBRARY = "/usr/lib/system/libsystem_platform.dylib"
USAGE = "usage: symbolicate-report "


def platform() -> bytes:
    """A companion of libsystem_platform.dylib."""
    begin = 0x1_0000_0000
    return companion({}, [(begin, 0x100)], "arm64", 7, [(b"__sigtramp", begin), (b"__platform_bzero", begin + 0x80)])


def frames_of(signal: str) -> List[Tuple[str, int, int, str]]:
    """The frames of a thread, the innermost first: image, its address, the offset, and the name that the report has."""
    platform_frame = ("libsystem_platform.dylib", PLATFORM_AT, IN_PLATFORM, signal)
    interrupted = ("spool", SPOOL_AT, INTERRUPTED, "")
    return [("spool", SPOOL_AT, HANDLER, ""), platform_frame, interrupted, interrupted]


def images() -> str:
    return (f"{SPOOL_AT:#x} - {SPOOL_AT + 0x3FFF:#x} spool arm64 <{SPOOL}> /usr/local/bin/spool\n"
            f"{PLATFORM_AT:#x} - {PLATFORM_AT + 0x3FFF:#x} libsystem_platform.dylib arm64 <{PLATFORM}> {LIBRARY}\n")


def crash(signal: str) -> str:
    lines = [f"{number}   {image}   {base + at:#018x} {name or f'{base:#x} + {at}'}\n"
             for number, (image, base, at, name) in enumerate(frames_of(signal))]  # fmt: skip
    return f"Code Type: ARM-64\n\nThread 0 Crashed:\n{''.join(lines)}\nBinary Images:\n{images()}"


def of_signal(name: str) -> Dict[str, Any]:
    return {"symbol": "_sigtramp", "symbolLocation": 56} if name else {}


def ips(signal: str, **more: Any) -> str:
    frames: List[Dict[str, Any]] = [{"imageOffset": at, "imageIndex": int(image != "spool"), **of_signal(name)}
                                    for image, _, at, name in frames_of(signal)]  # fmt: skip
    used = [{"uuid": SPOOL, "arch": "arm64", "base": SPOOL_AT, "size": 0x4000, "name": "spool"},
            {"uuid": PLATFORM, "arch": "arm64", "base": PLATFORM_AT, "size": 0x4000, "path": LIBRARY}]
    thread = {"triggered": True, "id": 1, "frames": frames}
    document = {"cpuType": "ARM-64", "faultingThread": 0, "threads": [thread], "usedImages": used, **more}
    return '{"bug_type":"309","app_name":"spool"}\n' + json.dumps(document)


def payload(signal: str, is_thread: bool) -> str:
    """A diagnostic of MetricKit. In the tree of a hang the outermost frame is the root."""
    inner: Dict[str, Any] = {}
    for image, base, at, name in frames_of(signal)[:: -1 if is_thread else 1]:
        key = SPOOL if image == "spool" else PLATFORM
        below = {"subFrames": [inner]} if inner else {}
        inner = {"binaryUUID": key, "binaryName": image, "offsetIntoBinaryTextSegment": at, "address": base + at,
                 "sampleCount": 1, **of_signal(name), **below}  # fmt: skip
    stacks = [{"threadAttributed": True, "callStackRootFrames": [inner]}]
    tree = {"callStackPerThread": is_thread, "callStacks": stacks}
    return json.dumps({"crashDiagnostics": [{"callStackTree": tree}]})


def sample(signal: str) -> str:
    lines = []
    for depth, (image, base, at, name) in enumerate(reversed(frames_of(signal))):
        said = f"???  (in {image})  load address {base:#x} + {at:#x}"
        said = f"{name.partition(' ')[0]}  (in {image}) + 56" if name else said
        lines.append(f"    + {'  ' * depth}2543 {said}  [{base + at:#x}]\n")
    return (f"Analysis of sampling spool (pid 4) every 1 millisecond\nCode Type: ARM64\n----\n\nCall graph:\n"
            f"    2543 Thread_1\n{''.join(lines)}\nBinary Images:\n{images()}")


def spindump(signal: str) -> str:
    outermost_first = reversed(frames_of(signal))
    frames = [f"{name or '???'} ({image} + {at}) [{base + at:#x}]" for image, base, at, name in outermost_first]
    heaviest = "".join(f"  9  {frame}\n" for frame in frames)
    tree = "".join(f"  {'  ' * depth}9  {frame} 1-9\n" for depth, frame in enumerate(frames))
    return (f"Date/Time: 2026\nHeaviest stack for the main thread of the target process:\n{heaviest}\n"
            f"Process: spool [4]\nArchitecture: arm64\n\n  Thread 0x1  9 samples (1-9)\n{tree}\n"
            f"  Binary Images:\n{images()}")


class Signals(ReportCase):
    """The first week: a process is interrupted by a signal, whose handler ends it."""

    def setUp(self) -> None:
        super().setUp()
        self.system = self.folder / "system.sym"
        program("admit", self.archives / "shipped", self.system, self.file("platform", platform()))

    def ways(self) -> Sequence[Tuple[str, Any]]:
        """The name is in the report; or the archive alone has it."""
        return ("_sigtramp + 56", "shipped"), ("", self.system)

    def printed(self, name: str, text: str, archive: Any, *words: str) -> str:
        came = self.report(*words, self.file(name, text), archive)
        self.assertEqual(came.status, 0, came.errors)
        return came.out.decode()

    def test_crash(self) -> None:
        for signal, archive in self.ways():
            lines = re.findall(r"^\d+ .*\s0x[0-9a-f]{16} (.*)", self.printed("x.crash", crash(signal), archive), re.M)
            self.assertEqual(lines, NAMED)

    def test_ips(self) -> None:
        for signal, archive in self.ways():
            document = json.loads(self.printed("x.ips", ips(signal), archive).partition("\n")[2])
            frames = document["threads"][0]["frames"]
            self.assertEqual([one["symbol"] for one in frames], ["copy_body", "_sigtramp", "spool_one", "start"])
            self.assertEqual([one.get("sourceLine") for one in frames], [9, None, 24, 32])
            text = self.printed("x.ips", ips(signal), archive, "--text")
            lines = [re.sub(r"^\S+\s+\S+\s+\S+ ", "", line) for line in text.splitlines() if "\t" in line]
            self.assertEqual((lines[0], lines[2:]), (NAMED[0], NAMED[2:]))

    def test_metrickit(self) -> None:
        """A thread, and a tree whose root is the outermost frame."""
        for signal, archive in self.ways():
            for is_thread in (True, False):
                document = json.loads(self.printed("x.json", payload(signal, is_thread), archive))
                (one,) = document["crashDiagnostics"][0]["callStackTree"]["callStacks"][0]["callStackRootFrames"]
                names = [one["symbol"]]
                while "subFrames" in one:
                    (one,) = one["subFrames"]
                    names.append(one["symbol"])
                wanted = ["copy_body", "_sigtramp", "spool_one", "start"]
                self.assertEqual(names, wanted if is_thread else wanted[::-1])

    def test_call_trees(self) -> None:
        for signal, archive in self.ways():
            tree = re.findall(r"2543 (\w+)  \(in \w.*?\) \+ (\d+)", self.printed("x.txt", sample(signal), archive))
            wanted = [("start", "52"), ("spool_one", "0"), ("_sigtramp", "56"), ("copy_body", "12")]
            self.assertEqual(tree, wanted)
            both = re.findall(r"9  (\w+) \+ (\d+) \(", self.printed("x.spindump", spindump(signal), archive))
            self.assertEqual(both, wanted * 2)

    def test_a_tree_with_calls_too(self) -> None:
        """A frame that has a call below it and a signal was returned to; the lists beside the tree are as the tree."""
        text = sample("_sigtramp + 56")
        signal = next(line for line in text.splitlines(keepends=True) if "_sigtramp" in line)
        called = signal.replace("_sigtramp  (in libsystem_platform.dylib)", "read  (in libsystem_kernel.dylib)")
        raw = "        5       ???  (in spool)  load address 0x104d38000 + 0x46c  [0x104d3846c]\n"
        head, tail = text.split("\nBinary Images", 1)
        tree = re.findall(r"2543 (\w+)  \(in spool\) \+ (\d+)", self.printed(
            "both.txt", text.replace(signal, called + signal), "shipped"))  # fmt: skip
        self.assertEqual(tree, [("start", "52"), ("start", "52"), ("copy_body", "12")])
        with_list = f"{head}\nTotal number in stack:\n{raw}\nBinary Images{tail}"
        printed = self.printed("list.txt", with_list, "shipped")
        self.assertRegex(printed, r"        5       spool_one  \(in spool\) \+ 0  \[0x104d3846c\]")

    def test_a_line_of_several_addresses(self) -> None:
        """Each of them was interrupted."""
        both = "[0x104d3846c,0x104d38490]"
        below = "\n    +     2543 _sig"
        text = sample("_sigtramp + 56").replace(f"  [0x104d3846c]{below}", f"  {both}{below}")
        self.assertIn(f"spool_one,shelf_of  (in spool) + 0,0  {both}", self.printed("x.txt", text, "shipped"))

    def test_a_line_of_addresses(self) -> None:
        """Of an exception, which has no names: those of the archive say it, and of each frame alone."""
        addresses = " ".join(f"{base + at:#x}" for _, base, at, _ in frames_of(""))
        backtrace = f"Last Exception Backtrace:\n({addresses})\n\nThread 0:"
        text = crash("_sigtramp + 56").replace("Thread 0 Crashed:", backtrace)
        lines = re.findall(r"^\d+ .*\s0x[0-9a-f]{16} (.*)", self.printed("x.crash", text, self.system), re.M)
        self.assertEqual(lines, NAMED * 2)

    def test_groups(self) -> None:
        """The frame that was interrupted makes the group."""
        for signal, archive in self.ways():
            self.file("in/a.crash", crash(signal))
            self.file("in/b.ips", ips(signal))
            came = self.report("--group", "in", archive)
            wanted = "copy_body (spool); _sigtramp (libsystem_platform.dylib); spool_one (spool)"
            self.assertEqual(came.lines, [f"2\t{wanted}\tin/a.crash"])

    def test_the_archive_is_asked_once_without_signals(self) -> None:
        """And twice if the archive alone names one."""
        path = self.script("counting", f'echo "$1" >>"{self.folder}/calls"; exec "$symarch" "$@"')
        for signal, archive, count in (("_sigtramp + 56", "shipped", 1), ("", "shipped", 1), ("", self.system, 2)):
            (self.folder / "calls").write_text("")
            self.report(self.file("x.crash", crash(signal)), archive, environment={"SYMARCH": path})
            self.assertEqual((self.folder / "calls").read_text().count("frames"), count)


class Copies(ReportCase):
    """The second week: raw reports, and copies of them that were named before, come together."""

    def setUp(self) -> None:
        super().setUp()
        self.archive = self.folder / "lines.sym"
        program("admit", self.archives / "empty", self.archive, kept_lines.SOURCES / "arm64-2-dsymutil.dsym")

    def test_a_copy_is_of_the_group_of_its_report(self) -> None:
        """By each form, by the tool's own copy and by that of the system, which has other words for what was inlined.
        The functions are those that llvm-symbolizer says."""
        for form in ("crash", "ips"):
            raw = FIXTURES / f"inlined.{form}"
            self.file(f"in/a-raw.{form}", raw.read_bytes())
            self.file(f"in/b-named.{form}", self.report(raw, self.archive).out)
            self.file(f"in/c-system.{form}", (FIXTURES / f"system.{form}").read_bytes())
        self.file("in/d-text.crash", self.report("--text", FIXTURES / "inlined.ips", self.archive).out)
        self.file("in/e-others.crash", (FIXTURES / "system.crash").read_bytes().replace(b"clamp_low", b"lowest"))
        came = self.report("--group", "in", self.archive)
        self.assertEqual(came.lines, ["8\tclamp_low (lines); fail (lines); clamp_low (lines)\tin/a-raw.crash"])

    def test_a_payload_and_a_backtrace(self) -> None:
        """Their inlined functions count too."""
        line = b"Last Exception Backtrace:\n(0x104d3833c 0x104d383b0)\n\nThread 0 Crashed:"
        crash_text = (FIXTURES / "inlined.crash").read_bytes()
        self.file("in/a.crash", crash_text)
        self.file("in/b.crash", crash_text.replace(b"Thread 0 Crashed:", line))
        self.file("in/c.json", (FIXTURES / "inlined.metrickit.json").read_bytes())
        lines = self.report("--group", "in", self.archive).lines
        self.assertEqual(lines[0], "3\tclamp_low (lines); fail (lines); clamp_low (lines)\tin/a.crash")

    def test_lines_that_a_mail_wrapped(self) -> None:
        """The rest of a line is no end of the frames."""
        raw = source("crash")
        self.file("in/a.crash", raw)
        for number, (before, after) in enumerate(((b" + ", b" +\n    "), (b" + ", b"\n+ "))):
            self.file(f"in/b-{number}.crash", raw.replace(before, after))
        came = self.report("--group", "in", "shipped")
        self.assertEqual([line.partition("\t")[0] for line in came.lines], ["3"], came.lines)

    def test_several_answers(self) -> None:
        """The answers that stand below a frame of a copy are no frames."""
        self.file("in/a.crash", source("crash"))
        self.file("in/b.crash", self.report(CRASHES / "arm64.crash", "differ").out)
        self.file("in/c.ips", self.report(CRASHES / "arm64.ips", "differ").out)
        lines = self.report("--group", "in", "differ").lines
        self.assertEqual(lines, ["3\tspool + 1040; file_message (spool); spool + 1156\tin/a.crash"])

    def test_without_an_answer_the_report_counts(self) -> None:
        self.file("in/system.ips", (FIXTURES / "system.ips").read_bytes())
        lines = self.report("--group", "in", "empty").lines
        self.assertEqual(lines, ["1\tclamp_low (lines); fail (lines); clamp_low (lines)\tin/system.ips"])

    def test_a_line_that_is_not_known(self) -> None:
        """The compiler made code of no line there: the file stands with 0, as the system prints it. Of a frame whose
        file is not known nothing stands."""
        printed = self.report(FIXTURES / "inlined.crash", self.archive).out.decode()
        self.assertIn("0x104d38394 start + 36 (a.c:0)\n", printed)
        frames = json.loads(self.report(FIXTURES / "inlined.ips", self.archive).out.partition(b"\n")[2])["threads"][1]
        self.assertEqual([frames["frames"][0][name] for name in ("sourceFile", "sourceLine")], ["a.c", 0])
        sampled = self.report(FIXTURES / "inlined.sample.txt", self.archive).out.decode()
        self.assertIn("start  (in lines) + 36  [0x104d38394]  a.c:0\n", sampled)


# Registers in an order of JSON that has no sense, and as a crash report has them.
ARM_STATE: Dict[str, Any] = {
    "esr": {"value": 0x92000006, "description": "(Data Abort) byte read Translation fault"},
    "flavor": "ARM_THREAD_STATE64", "far": {"value": 0x20}, "pc": {"value": 0x104D38410, "matchesCrashFrame": 1},
    "cpsr": {"value": 0x60001000}, "sp": {"value": 0x16B0C6E50}, "lr": {"value": 0x104D383F8},
    "x": [{"value": number} for number in range(29)], "fp": {"value": 0x16B0C6E60},
}  # fmt: skip
ARM_LINES = """Thread 0 crashed with ARM Thread State (64-bit):
    x0: 0x0000000000000000   x1: 0x0000000000000001   x2: 0x0000000000000002   x3: 0x0000000000000003
    x4: 0x0000000000000004   x5: 0x0000000000000005   x6: 0x0000000000000006   x7: 0x0000000000000007
    x8: 0x0000000000000008   x9: 0x0000000000000009  x10: 0x000000000000000a  x11: 0x000000000000000b
   x12: 0x000000000000000c  x13: 0x000000000000000d  x14: 0x000000000000000e  x15: 0x000000000000000f
   x16: 0x0000000000000010  x17: 0x0000000000000011  x18: 0x0000000000000012  x19: 0x0000000000000013
   x20: 0x0000000000000014  x21: 0x0000000000000015  x22: 0x0000000000000016  x23: 0x0000000000000017
   x24: 0x0000000000000018  x25: 0x0000000000000019  x26: 0x000000000000001a  x27: 0x000000000000001b
   x28: 0x000000000000001c   fp: 0x000000016b0c6e60   lr: 0x0000000104d383f8
    sp: 0x000000016b0c6e50   pc: 0x0000000104d38410 cpsr: 0x60001000
   far: 0x0000000000000020  esr: 0x92000006 (Data Abort) byte read Translation fault

"""
X86_STATE: Dict[str, Any] = {
    "r13": {"value": 13}, "rax": {"value": 1}, "rflags": {"value": 0x246}, "cpu": {"value": 6}, "r14": {"value": 14},
    "rsi": {"value": 6}, "r8": {"value": 8}, "cr2": {"value": 0x20}, "rdx": {"value": 4}, "r10": {"value": 10},
    "r9": {"value": 9}, "r15": {"value": 15}, "rbx": {"value": 2}, "err": {"value": 4},
    "trap": {"value": 14, "description": "(no mapping for user data read)"}, "r11": {"value": 11},
    "rip": {"value": 0x10A5C4410}, "rbp": {"value": 7}, "rsp": {"value": 8}, "r12": {"value": 12}, "rcx": {"value": 3},
    "flavor": "x86_THREAD_STATE", "rdi": {"value": 5},
}  # fmt: skip
X86_LINES = """Thread 0 crashed with X86 Thread State (64-bit):
  rax: 0x0000000000000001  rbx: 0x0000000000000002  rcx: 0x0000000000000003  rdx: 0x0000000000000004
  rdi: 0x0000000000000005  rsi: 0x0000000000000006  rbp: 0x0000000000000007  rsp: 0x0000000000000008
   r8: 0x0000000000000008   r9: 0x0000000000000009  r10: 0x000000000000000a  r11: 0x000000000000000b
  r12: 0x000000000000000c  r13: 0x000000000000000d  r14: 0x000000000000000e  r15: 0x000000000000000f
  rip: 0x000000010a5c4410  rfl: 0x0000000000000246  cr2: 0x0000000000000020

Logical CPU:     6
Error Code:      0x00000004 (no mapping for user data read)
Trap Number:     14

"""
# As JSON of the system has them, with `description`, and the backtrace that a library kept as a text.
REASON = {"arguments": ["5"], "format_string": "index %@ beyond bounds", "name": "NSRangeException",
          "class": "NSException", "type": "objc-exception",
          "composed_message": "index 5 beyond bounds\n(\n\tshelf\n)"}  # fmt: skip
BACKTRACE = ("0   CoreFoundation                      0x00000001a2b3c4d5 __exceptionPreprocess + 176\n"
             "1   spool                               0x0000000104d3846c spool + 1132\n"
             "2   spool                               0x0000000104d38410 spool + 1040\n")  # fmt: skip


class Exceptions(ReportCase):
    """The third week: `--text` has what people ask for first."""

    def text(self, **more: Any) -> str:
        came = self.report("--text", self.file("x.ips", ips("_sigtramp", **more)), "shipped")
        self.assertEqual(came.status, 0, came.errors)
        return came.out.decode()

    def test_the_message_of_an_exception(self) -> None:
        text = self.text(exception={"type": "EXC_CRASH", "signal": "SIGABRT"}, exceptionReason=REASON)
        said = "Exception Reason:      NSRangeException: index 5 beyond bounds\n(\n\tshelf\n)\n"
        self.assertIn(f"Exception Type:        EXC_CRASH (SIGABRT)\n{said}", text)
        for reason in (5, {}, {"name": 5}, {"composed_message": ["x"]}, []):
            self.assertNotIn("NSRange", self.text(exceptionReason=reason))

    def test_registers(self) -> None:
        """In the order of crash reports, whatever that of JSON is; others after them."""
        for state, wanted in ((ARM_STATE, ARM_LINES), (X86_STATE, X86_LINES)):
            self.assertIn(f"\n\n{wanted}Binary Images:\n", self.with_state(state))
            shuffled = dict(sorted(state.items()))
            self.assertIn(f"\n\n{wanted}Binary Images:\n", self.with_state(shuffled))
        more = self.with_state({"far": {"value": 1}, "tpidr": {"value": 2}, "x": [{"value": 3}]})
        self.assertIn("    x0: 0x0000000000000003\n   far: 0x0000000000000001\n tpidr: 0x0000000000000002\n\n", more)

    def with_state(self, state: Dict[str, Any]) -> str:
        document = json.loads(ips("_sigtramp").partition("\n")[2])
        document["threads"][0]["threadState"] = state
        path = self.file("x.ips", '{"bug_type":"309"}\n' + json.dumps(document))
        return self.report("--text", path, "shipped").out.decode()

    def test_backtraces_of_the_process(self) -> None:
        """They are named as a thread is, by the images of the report, and their frames are counted."""
        path = self.file("x.ips", ips("_sigtramp", asiBacktraces=["", BACKTRACE]))
        came = self.report("--text", path, "shipped")
        wanted = (BACKTRACE.replace("spool + 1132", "start + 52 (spool.c:32)")
                  .replace("spool + 1040", "copy_body + 12 (spool.c:9)"))  # fmt: skip
        self.assertIn(f"\n\nApplication Specific Backtrace 1:\n{wanted}\nThread 0 Crashed:", came.out.decode())
        self.assertRegex(came.error_lines[-1], "^5 of 7 frames named, 2 named before, 0 not named; ")


class Architectures(ReportCase):
    """The fourth week: a report says arm64e, and arm64 was kept."""

    def test_one_other_answers(self) -> None:
        path = self.file("x.crash", source("crash").replace(b"spool arm64 <", b"spool arm64e <"))
        came = self.report(path, "shipped")
        self.is_printed(came, named("crash").replace(b"spool arm64 <", b"spool arm64e <"))
        self.assertEqual((came.status, came.error_lines), (0, [
            "4 of 4 frames named, 0 named before, 0 not named; "
            f"by dSYM: spool {SPOOL} arm64e (the archive has arm64)"]))  # fmt: skip
        (image,) = json.loads(self.report("--json", path, "shipped").lines[0])["images"]
        self.assertEqual((image["arch"], image["answered_by"], image["others"]), ("arm64e", "dsym", ["arm64"]))
        self.assertEqual(self.report("--missing", path, "shipped").out, b"")

    def test_one_without_a_word_of_its_own(self) -> None:
        """As of a watch, under whose architecture the archive has the UUID alone."""
        linked = (CRASHES / "spool-1.arm64").read_bytes()
        watch = self.file("watch", linked[:4] + bytes.fromhex("0c000002 01000000") + linked[12:])
        program("admit", self.archives / "empty", self.folder / "watch.sym", watch)
        came = self.report(CRASHES / "arm64.crash", self.folder / "watch.sym")
        self.assertRegex(came.error_lines[-1], r"^4 of 4 .*\(the archive has cpu:0200000c/00000001\)$")


class Words(ReportCase):
    """The last days: somebody new names something else, and is told what to do."""

    def is_told(self, words: Sequence[Any], said: str, status: int) -> None:
        came = self.report(*words)
        line = f"symbolicate-report: {said}"
        self.assertEqual((came.status, came.out, self.shortened(came)[-1]), (status, b"", line))
        self.assertEqual(len([line for line in came.error_lines if not line.startswith(USAGE)]), 1)

    def test_a_dsym_in_the_place_of_an_archive(self) -> None:
        (self.folder / "App.dSYM/Contents/Resources/DWARF").mkdir(parents=True)
        (self.folder / "My App.dSYM").mkdir()
        said = "{} is a dSYM: run symarch-keep add builds.sym {}, then name builds.sym"
        for name, typed in (("App.dSYM", "App.dSYM"), ("App.dSYM/", "App.dSYM"), ("My App.dSYM", "'My App.dSYM'")):
            wanted = said.format(name.rstrip("/"), typed)
            self.is_told([CRASHES / "arm64.crash", name], wanted, 3)
            self.is_told(["--group", CRASHES / "arm64.crash", name], wanted, 3)
        one = "spool-1.dSYM"
        self.is_told([CRASHES / "arm64.crash", CRASHES / one], said.format(one, one), 3)

    def test_an_archive_that_is_cut(self) -> None:
        """With an index beside it, and without one; also one of several."""
        whole = (self.archives / "shipped").read_bytes()
        said = "{} is cut short: restore it from a backup or another site"
        crash_path = CRASHES / "arm64.crash"
        for size in (0, 5, 8, 9, 3000, len(whole) - 1):
            path = self.file("cut.sym", whole[:size])
            if size >= 8:
                self.is_told([crash_path, "cut.sym"], said.format("cut.sym"), 2)
                self.is_told([crash_path, path, "shipped"], said.format("cut.sym"), 2)
        self.file("kept.sym", whole)
        program("index", self.folder / "kept.sym", self.folder / "kept.sym.idx")
        self.file("kept.sym", whole[:3000])
        self.is_told([crash_path, "kept.sym"], said.format("kept.sym"), 2)
        self.is_told([crash_path, "shipped", "kept.sym"], said.format("kept.sym"), 2)
        end = json.loads(self.report("--json", crash_path, "kept.sym").lines[-1])
        self.assertEqual((end["faults"], end["status"]), ([said.format("kept.sym")], 2))

    def test_an_archive_that_is_not_there(self) -> None:
        said = "nofile.sym: No such file; symarch-keep add makes an archive"
        self.is_told([CRASHES / "arm64.crash", "nofile.sym"], said, 2)
        self.assertFalse((self.folder / "nofile.sym").exists())

    def test_a_file_in_the_place_of_a_folder(self) -> None:
        path = self.file("r.ips", source("ips"))
        self.is_told(["--out", "r.ips", "r.ips", "shipped"], "--out needs a folder, and r.ips is a file", 2)
        self.assertEqual(path.read_bytes(), source("ips"))

    def test_a_folder_of_reports(self) -> None:
        self.file("crashes/a.ips", source("ips"))
        said = "crashes may hold several reports: add --out NEWFOLDER, or --group"
        several: List[List[Any]] = [["crashes"], ["--text", "crashes"], ["crashes", CRASHES / "arm64.crash"]]
        for words in several:
            self.is_told([*words, "shipped"], said, 3)
        self.assertEqual(self.report("--group", "crashes", "shipped").status, 0)
        self.assertEqual(self.report("--out", "new", "crashes", "shipped").status, 0)
