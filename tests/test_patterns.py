"""The regular expressions of the tools: each takes time in proportion to the length of any input. Other forms are
parsed plainly."""
import ast
import collections
import importlib
import importlib.util
import pathlib
import pkgutil
import re
import sys
import time
import types
import unittest
from typing import Any, Callable, Dict, Iterator, List, Pattern, Tuple, Union

from .support.growth import LONGER, MOST_RATIO, ratio
from .support.program import TOP

sys.path.insert(0, str(TOP / "tools"))
import symarch_server  # noqa: E402
import symarch_tools  # noqa: E402

Text = Union[bytes, str]
# How a pattern is used, and the samples for it: each a text of about so many bytes on which it would have to try much.
Samples = Tuple[str, List[Callable[[int], Text]]]
# The bytes of a sample, of which a longer one is LONGER times as long, and the processor time of some uses that are
# compared.
SIZE, LEAST_SECONDS = 10_000, 0.01
UUID, DIGEST = "4c4c4419-5555-3144-a1d2-4341c97782f0", "0" * 64


def run(before: str, again: str, after: str = "\0") -> Callable[[int], bytes]:
    """A text that begins so, goes on with the same again and again, and ends so."""
    return lambda size: (before + again * (size // len(again)) + after).encode("latin-1")


def text_run(before: str, again: str, after: str = "\0") -> Callable[[int], str]:
    return lambda size: before + again * (size // len(again)) + after


SPACES, DIGITS = run("", " "), run("", "1")
SAMPLES: Dict[str, Samples] = {
    "console.escapes.ESCAPED": ("sub", [run("", "\\x"), run("", "\\x1b")]),
    "console.escapes.OF_TERMINAL": ("sub", [text_run("", "a"), text_run("", "\x9b")]),
    "console.version.RELEASE": ("search", [text_run("### ", "1.1.1"), text_run("", "### 1.1.1, 2000-01-01\n\0\n")]),
    "console.version.NEXT": ("search", [text_run("### ", "1.1.1"), text_run("", "### 1.1.1, not release\n")]),
    "console.answer_lines.ANSWER": ("match", [run("", " + 1 "), run("", " + 1"), SPACES]),
    "console.answer_lines.SEVERAL": ("fullmatch", [run("!", "1")]),
    "console.answer_lines.ESCAPED": ("sub", [text_run("", "\\x1"), text_run("", "\\xff")]),
    "console.answer_lines.SLICE": ("fullmatch", [
        text_run(f"{UUID} ", "a"), text_run(f"{UUID} arm64 dsym ", "0"), text_run(f"{UUID} arm64 refused ", "a"),
    ]),
    "console.program_faults.FAULT": ("fullmatch", [
        text_run("archive 0: ", " at 1"), text_run("index ", "1"), text_run("file 0: Stale at entry ", "1"),
    ]),
    "formats.build_lines.LINE": ("fullmatch", [
        run("0" * 16 + " 2000-01-01 " + UUID + " arm64 " + DIGEST + " ", "\\x20"),
    ]),
    "store.bundles.folder.UNPRINTABLE": ("sub", [text_run("", "\1"), text_run("", "a")]),
    "formats.contents.NUMBERED": ("fullmatch", [text_run("cpu:", "0")]),
    "commands.arguments.DIGEST": ("fullmatch", [text_run("", "a")]),
    "commands.arguments.SIZE": ("fullmatch", [text_run("", "1"), text_run("1", "k")]),
    "commands.arguments.DECIMAL": ("fullmatch", [text_run("", "1"), text_run("1", "x")]),
    "commands.arguments.HEX": ("fullmatch", [text_run("0x", "1")]),
    "commands.arguments.SECONDS": ("fullmatch", [text_run("", "1"), text_run("1.", "1"), text_run("", "1.")]),
    "console.json_lines.SURROGATE": ("sub", [text_run("", "\ud83d"), text_run("", "a")]),
    "formats.file_kinds.HTML": ("match", [run("<", "html"), run("<!doctype ", "html")]),
    "formats.file_kinds.SPACE": ("match", [SPACES]),
    "formats.file_kinds.REPORT": ("match", [SPACES, run("\xef\xbb\xbf", "\n")]),
    "store.program.PASSED_OVER": ("fullmatch", [text_run("file ", "1"), text_run("file 1 refused ", "a")]),
    "store.refusals.OUTSIDE": ("fullmatch", [text_run("Fat(SliceOutside(", "1")]),
    "exchange.signatures.LENGTH": ("search", [run("", "length 1"), run("", "length 1 \n"), run("length ", "1")]),
    "exchange.signatures.FOLDER": ("search", [run("", "folder 0\n"), run("folder ", "0")]),
    "exchange.shared_folder.NAME_OF_SITE": ("fullmatch", [text_run("", "a")]),
    "exchange.shared_folder.QUESTION": ("fullmatch", [text_run("", "a"), text_run("a.asks.", "0")]),
    "exchange.shared_folder.ANSWER": ("fullmatch", [text_run("", "a"), text_run("a.answers.", "a.")]),
    "exchange.shared_folder.MARK": ("fullmatch", [text_run("", "a"), text_run("a.is.", "0")]),
    "exchange.shared_folder.BUILDS": ("fullmatch", [text_run("", "a"), text_run("a.builds.", "0")]),
    "exchange.shared_folder.SIGNATURE": ("fullmatch", [
        text_run("a.asks.", "."), text_run("a.is.", ".0123456789abcdef"),
    ]),
    "console.demangler.NUMBERED": ("fullmatch", [text_run("llvm-cxxfilt-", "1")]),
    "console.demangler.OF_SWIFT": ("match", [text_run("", "_"), text_run("", "$")]),
    "console.demangler.NEEDS_SWIFT": ("match", [text_run("", "_"), text_run("", "_T")]),
    "console.demangler.OF_CXX": ("match", [text_run("", "_")]),
    "console.demangler.BLOCK": ("fullmatch", [
        text_run("___Z", "_block_invoke"), text_run("___Z", "_block_invoke_1."),
    ]),
    "console.demangler.UNNAMED": ("sub", [
        text_run("", "{lambda("), text_run("{lambda(", ")#1"), text_run("", "{lambda()#1}"),
    ]),
    "console.demangler.CRATE": ("sub", [text_run("", "a["), text_run("a[", "0"), text_run("", "a[0]")]),
    "console.demangler.ENDS": ("sub", [text_run("", "> "), text_run("", ">")]),
    "reports.groups.CRASHED": ("search", [run("Thread ", "1"), run("", "Thread 1 Crashed\n"), run("", "\n")]),
    "reports.groups.EXCEPTION": ("search", [
        SPACES, run("", " \t\n"), run("", "Last Exception Backtrac\n"), run("", "*** First throw\n"),
        run("", "10:00:01 "),
    ]),
    "reports.text.report.CONFLICTING": ("match", [SPACES, run("  ", "0")]),
    "reports.images.DIGITS": ("fullmatch", [text_run("", "0")]),
    "reports.json.edits.VALUE": ("match", [run('"', '\\"'), run("", "1"), run("1", " ,")]),
    "reports.json.edits.ARRAY": ("match", [run("[", " "), run("[1", " "), run("[", "1"), run("[1,", " ")]),
    "reports.json.walk.FLAT": ("match", [run("{", '"a"'), run("[", '"\\"'), run("[", "1,"), run('["', "\\\\")]),
    "reports.json.walk.LITERAL": ("match", [DIGITS, run("1.", "1"), run("1e", "1"), run("-", "1.1")]),
    "reports.json.walk.SPACE": ("match", [SPACES]),
    "reports.json.walk.COLON": ("match", [SPACES, run(":", " ")]),
    "reports.json.walk.COMMA": ("match", [SPACES, run(",", " "), run("", ","), run("", " ,")]),
    "reports.json.walk.UNENDED": ("fullmatch", [DIGITS, run("", "-a.")]),
    "reports.text.named_lines.SOURCE": ("search", [
        run("", " ("), run(" (", ":1"), run(" (", ":"), run(" (:", "1"), SPACES,
    ]),
    "reports.text.named_lines.NUMBER": ("match", [DIGITS, SPACES, run("1", " "), run("1.", " ")]),
    "reports.arguments.IMAGE_ARGUMENT": ("fullmatch", [
        text_run("", "="), text_run("", "a"), text_run(f"a={UUID}", "@"), text_run("a=", "0"),
        text_run("", f"={UUID}"),
    ]),
    "reports.text.logged.ANY": ("search", [
        SPACES, run("", "10:00:01"), run("", "10:00:01 "), run("", "10:00:01 a\n"), run("10:00:01 ", "a"),
        run("10:00:01 ", "[1"), run("", "* \n"), run("", "2000-01-01 "), run("", "Jan 01 "), run("10:00:01.", "1"),
    ]),
    "reports.text.logged.LINE": ("match", [run("", "a"), run("", "\r")]),
    "reports.text.logged.LOGGED_LINE": ("match", [
        run("", "a"), run("", "\r"), SPACES, run("10:00:01 ", "a"), run("10:00:01 a[", "1"), run("* ", " "),
    ]),
    "reports.text.unlisted.FROM_LOAD": ("fullmatch", [
        run("0x1", " ", "\n\0"), run("0x", "1"), run("0x1 +", "a", "\n"),
    ]),
    "reports.text.unlisted.FROM_IMAGE": ("fullmatch", [run(" + ", "1"), run(" + 1", " "), run(" + 1 (", " ")]),
    "reports.text.pasted.QUOTED": ("search", [
        SPACES, run("", ">"), run("", "> >\n"), run("> ", "1"), run("> 1", " "), run("", "> 1 \n"),
    ]),
    "reports.text.pasted.FIRST_LINE": ("search", [
        SPACES, run("", ">\n"), run("{", "\r"), run("", " {\n \n"), run("", "Proces\n"),
    ]),
    "reports.json.readable_header.WORDS": ("findall", [
        text_run("", "A"), text_run("", "Aa"), text_run("", "AAa"), text_run("", "_"),
    ]),
    "reports.report.DOCUMENT": ("match", [SPACES, run("", "\n")]),
    "reports.report.BEGINNING": ("search", [run('"bug_type"', " "), run("", '"bug_type" '), run("", "Proces\n")]),
    "reports.report.LISTING": ("search", [SPACES, run("", " \n"), run("", "Binary Image\n")]),
    "reports.report.FRAMES": ("match", [run("0" * 32 + " ", "a"), run("0" * 32 + " a ", "0"), run("", "0")]),
    "reports.report.FULL": ("search", [
        run("", "-"), run("-", " "), run("", "-\n"), run("", "-\nFull Report\n-\n"), run("-\nFull Report\n-\n", "\n"),
        run("-\nFull Report", " "),
    ]),
    "console.streams.LONE_SURROGATE": ("sub", [text_run("", "a"), text_run("", "\ud83d")]),
    "reports.text.report.PROCESSOR": ("search", [run("Code Type:", " "), run("", "Code Type:\n\0"), run("", "\n")]),
    "reports.text.report.PROCESS": ("search", [
        run("Process:", " "), run("Process: a", " ["), run("", "Process: a\n"), run("Process: ", "a"), run("", "\n"),
    ]),
    "reports.text.report.VERSION": ("search", [
        run("Version:", " "), run("", "Version:\n"), run("", "Version: \n"), run("", "10:00:01 "), run("", "\n"),
    ]),
    "reports.text.report.CRASH": ("match", [
        run("0 ", " "), run("0 x", " "), run("0 x ", "0x1 ", ""), run("0 x", " 12345"), run("0 x", " 12345 12345 + 1"),
        run("0 x", " 12345 12345 + 1 ("), run("0 x 12345 12345 + 1 (", ":1"), run("0 x 12345 12345 + 1 (:", "1"),
        run("0 x 12345 12345 + 1", " "), run("0 x 12345", " "), DIGITS, SPACES, run("1.", " "),
    ]),
    "reports.text.report.NAMED_DECIMAL": ("match", [
        run("0 x", " 123456789"), run("0 x 123456789", " "), run("0 ", " "), SPACES,
    ]),
    "reports.text.report.OFFSET": ("search", [run("", " +"), run("", " + ")]),
    "reports.text.report.NO_NAME": ("fullmatch", [
        SPACES, run("0x", "1"), run("12345 + ", "1", "\n\0"), run("12345", " ", "\n\0"), run("(Missing", " ", "\n"),
    ]),
    "reports.text.report.MISSING": ("fullmatch", [run("(Missing UUID ", "0"), run(f"(Missing UUID {UUID})", " ")]),
    "reports.text.report.REST_OF_LINE": ("fullmatch", [SPACES, run("+ ", "1"), run("1", " ")]),
    "reports.text.report.SIGNAL_SAID": ("match", [run("", "_"), run("", "_sigtramp"), run("_sigtramp", " ")]),
    "reports.text.report.BACKTRACE": ("fullmatch", [
        run("(0x1", " 0x1"), run("(", "12345 "), run("(0x1", " "), run("(0x1)", " "),
    ]),
    "reports.text.report.IN_BRACKETS": ("search", [run("", "["), run("", "[0x1"), run("[0x", "1"), run("", "[12345")]),
    "reports.text.report.BEFORE_NAME": ("match", [
        SPACES, run("0x", "1"), run("1 - ", " "), run("1 - 1", " "), run("1 - 0x", "1"), run("1.", " "),
    ]),
    "reports.text.report.UUID": ("search", [SPACES, run("", " <"), run(" <", "0"), run("", " <" + "0" * 33)]),
    "reports.text.report.LISTED": ("match", [SPACES, DIGITS, run("1.", " ")]),
    "reports.text.tree_lines.NODE": ("match", [SPACES, run("", "+"), DIGITS, run("1", " ")]),
    "reports.text.tree_lines.AFTER_ADDRESSES": ("fullmatch", [
        SPACES, run(" [", "1"), run(" []  x", ":1"), run(" []  x:1", ",1"), run(" []  x:", "1"),
    ]),
    "reports.text.tree_lines.BEFORE_IMAGE": ("match", [SPACES]),
    "reports.text.tree_lines.SAMPLE_HEAD": ("match", [SPACES, run("", "+"), DIGITS, run("1", " ")]),
    "reports.text.tree_lines.AFTER_IN": ("search", [
        run("", ")"), run(")", " "), run("", ") + )"), run("", ") + a"), run(") + ", "a"), run(") [0x1", ", 0x1"),
        run("", ") load address 0x1"), run("", ") [0x1,"), run(") [", "12345"), run(")", " load address 0x1 + a"),
    ]),
    "reports.text.tree_lines.SPINDUMP_HEAD": ("match", [SPACES, DIGITS, run("1", " ")]),
    "reports.text.tree_lines.TAIL": ("finditer", [
        SPACES, run("", " ["), run("", " [0x1"), run("", " ("), run("", "??? [12345"),
    ]),
    "reports.text.tree_lines.AFTER_OFFSET": ("finditer", [
        run("", " + 1"), run(" + 1", " "), run(" + ", "1"), run("", " + 1 ("), run("", " + 1 [0x1"),
    ]),
    "reports.text.tree_lines.END_OF_IMAGE": ("finditer", [
        run("", " + 1)"), run(" + 1)", " "), run("", " + 1) [0x1"), SPACES,
    ]),
    "server.app.HOST": ("fullmatch", [text_run("", "a"), text_run("[", ":"), text_run("a:", "1"), text_run("", "a:1")]),
    "server.building.FOUND": ("fullmatch", [
        text_run("", "0"), text_run(f"{UUID} ", "a "), text_run(f"{UUID} a {DIGEST} ", "("),
        text_run(f"{UUID} a {DIGEST} 0 (", ") ("),
    ]),
    "server.forms.PLAIN": ("sub", [text_run("", "a"), text_run("", "\1")]),
    "server.forms.HEX": ("fullmatch", [text_run("", "0")]),
    "server.profile_jobs.DEBUG_ID": ("fullmatch", [text_run("", "0")]),
    "server.report_pages.THREAD": ("fullmatch", [run("Thread ", "1"), run("Thread 1", ":", ""), run("", "Thread ")]),
    "server.report_pages.NAME": ("sub", [
        text_run("", "Thread "), text_run("Thread ", "1"), text_run("Thread 1 name:", " "), text_run("", "Thread 1"),
    ]),
    "server.report_pages.STATE": ("match", [run("Thread ", "1"), run("Thread 1", " crashed")]),
    "server.report_pages.IMAGES": ("match", [SPACES]),
    "server.report_pages.IS_CRASHED": ("match", [run("Thread ", "1"), run("Thread 1", " ")]),
    "server.report_pages.OFFSET": ("fullmatch", [text_run("", " + 1"), text_run("", " + "), text_run(" + ", "1")]),
    "server.report_pages.ANSWER": ("fullmatch", [run("  ", f"{DIGEST} ", "\n"), run("  ", "0")]),
    "server.settings.LISTEN": ("fullmatch", [text_run("[", ":"), text_run("", "a"), text_run("a:", "1")]),
    "server.settings.NAME_OF_HOST": ("fullmatch", [text_run("", "a"), text_run("[", ":"), text_run("[", "a", "]a")]),
    "server.settings.ORIGIN": ("fullmatch", [text_run("https://", "a", "/"), text_run("http", "s")]),
    "server.tokens.LINE": ("fullmatch", [run("", "a"), run("a", " "), run("a ", "0")]),
    "server.tokens.PASSED_OVER": ("fullmatch", [SPACES, run("#", "a", "\n")]),
}


def modules() -> Iterator[Any]:
    """The modules of the tools and of the server, but for the one that begins it."""
    for package in (symarch_tools, symarch_server):
        for found in pkgutil.walk_packages(package.__path__, f"{package.__name__}."):
            if found.name != "symarch_server.wsgi":
                yield module_of(found.name)


def module_of(name: str) -> Any:
    """A module. One whose libraries are not installed has its regular expressions alone."""
    try:
        return importlib.import_module(name)
    except ImportError:
        made: Any = types.ModuleType(name)
        found = importlib.util.find_spec(name)
        made.__file__, made.re = found and found.origin, re
        for one in tree_of(made).body:
            if isinstance(one, ast.Assign) and isinstance(one.value, ast.Call) and "'compile'" in ast.dump(one.value):
                exec(compile(ast.Module([one], []), name, "exec"), vars(made))
        return made


def tree_of(module: Any) -> ast.Module:
    return ast.parse(pathlib.Path(module.__file__).read_text(encoding="utf-8"))


def patterns() -> Dict[str, "Pattern[Any]"]:
    """Each regular expression of the tools, by its module and its name. One that several modules have is that of the
    first one, in which it stands as it is called there."""
    found: Dict[str, "Pattern[Any]"] = {}
    for module in modules():
        tree = tree_of(module)
        own = {name.id for one in ast.walk(tree) if isinstance(one, ast.Assign)
               for name in ast.walk(one) if isinstance(name, ast.Name) and isinstance(name.ctx, ast.Store)}
        names = [name for name, value in vars(module).items() if isinstance(value, re.Pattern) and name in own]
        of = module.__name__.replace("symarch_tools.", "").replace("symarch_", "")
        found.update({f"{of}.{name}": getattr(module, name) for name in names})
    return found


def taken(pattern: "Pattern[Any]", how: str, text: Text, count: int) -> float:
    """The processor time of some uses."""
    use = getattr(pattern, how)
    words = ("" if isinstance(text, str) else b"", text) if how == "sub" else (text,)
    began = time.process_time()
    for _ in range(count):
        if how == "finditer":
            collections.deque(use(*words), maxlen=0)
        else:
            use(*words)
    return time.process_time() - began


def longer(pattern: "Pattern[Any]", how: str, made: Callable[[int], Text]) -> float:
    """How much longer the long sample takes. The slow ones are tried with few bytes."""
    size, count = 40, 1
    while size < SIZE and taken(pattern, how, made(size), 1) < LEAST_SECONDS:
        size *= 2
    one, long = made(size), made(LONGER * size)
    while taken(pattern, how, one, count) < LEAST_SECONDS:
        count *= 2
    return ratio(lambda: taken(pattern, how, one, count), lambda: taken(pattern, how, long, count))


class Patterns(unittest.TestCase):
    """By samples of two lengths. Beside others the times would say less."""

    is_alone = True
    seconds = 30

    def grow_slowly(self, begins: str) -> None:
        """Fails where a pattern whose name begins so takes far more than in proportion for the long sample."""
        found = patterns()
        for name, (how, samples) in SAMPLES.items():
            for number, made in enumerate(samples if name.startswith(begins) else []):
                with self.subTest(f"{name}, sample {number}"):
                    self.assertLessEqual(longer(found[name], how, made), MOST_RATIO)

    def test_each_has_samples(self) -> None:
        self.assertEqual(sorted(SAMPLES), sorted(patterns()))

    def test_none_is_compiled_elsewhere(self) -> None:
        """They stand at the top of a module, where the first test finds them."""
        others = []
        for module in modules():
            functions = [one for one in ast.walk(tree_of(module)) if isinstance(one, ast.FunctionDef)]
            for one in (one for part in functions for one in ast.walk(part)):
                if isinstance(one, ast.Attribute) and isinstance(one.value, ast.Name) and one.value.id == "re":
                    others.append(f"{module.__name__}:{one.lineno}")
        self.assertEqual(others, [])

    def test_of_symarch_keep(self) -> None:
        for begins in ("formats", "store", "exchange", "commands"):
            self.grow_slowly(f"{begins}.")

    def test_of_both(self) -> None:
        self.grow_slowly("console.")

    def test_of_texts(self) -> None:
        self.grow_slowly("reports.text.report.")

    def test_of_trees(self) -> None:
        self.grow_slowly("reports.text.tree_lines.")

    def test_of_json(self) -> None:
        self.grow_slowly("reports.json.")

    def test_of_the_program(self) -> None:
        for begins in ("questions", "images"):
            self.grow_slowly(f"reports.{begins}.")

    def test_of_what_is_printed(self) -> None:
        for begins in ("groups", "text.named_lines", "text.pasted", "report"):
            self.grow_slowly(f"reports.{begins}.")

    def test_of_the_server(self) -> None:
        self.grow_slowly("server.")
