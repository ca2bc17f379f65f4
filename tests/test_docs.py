"""The documents: links, definitions, the program's table, README's commands, the bytes in FILES, and that nothing is
said twice."""
import re
import unittest
from pathlib import Path
from typing import Dict, List, Set

from .model.tables import table_of
from .support.command_table import TABLE, fault_of_words, program_commands, text_of, those
from .support.made_images import index, slices_in
from .support.places import COMMANDS, READING, WRITING
from .support.program import TOP, call

DOCUMENTS = [*TOP.glob("*.md"), *TOP.glob("docs/*.md"), *TOP.glob("bench/*.md")]
FENCED = re.compile(r"^```.*?^```", re.M | re.S)
BLOCK = re.compile(r"^```sh\n(.*?)^```", re.M | re.S)
# The bytes of a file in hex digits, with words after some of them.
LISTED = re.compile(r"`((?:examples|tests/fixtures)/[^`]+)` [^`]*?has [0-9]+ bytes: .*?```\n(.*?)```", re.S)
BYTES = re.compile(r"^ *((?:[0-9a-f]{2,} ?)+)", re.M)
CODE = re.compile(r"`[^`\n]*`")
LINK = re.compile(r"\]\(([^)\s]+)\)")
# A public function, up to its body; and a type whose methods stand below.
PUBLIC = re.compile(r"^( *)pub (?:const )?fn (\w+)(?:.*\n)*?(?:.* )?\{\}?$", re.M)
METHODS_OF = re.compile(r"^impl(?:<.*?>)? (?:.* for )?(\w+).*\{$", re.M)
# The crates of which few functions have a clause: they are tests.
OF_TESTS = ("test_acceptance", "test_calls", "test_parts")
# The calls of the system for OUT, which a person reads, and what calls the system.
BODIES, MOST_LINES_TO_READ = "system_calls/bodies.rt", 100
CALL = re.compile(r"\b(?:fs::\w+|OpenOptions::new|files\s*\.\w+)\(|\.(?:sync_all|sync_data|set_permissions|set_len)\(")
# Help and refusals, which have usage lines; and what these have of options.
HELPS = "crates/test_acceptance/data/cases/words"
OPTIONS = re.compile(r"\[OPTIONS\] |--(?:lines|slices|keep-going) |--\w+ <\w+> ")
# A command of the program in a line of README.
COMMAND_LINE = re.compile(r"(?<![\w./-])symarch((?: [\w./-]+)+)")
# How long README is, and what it speaks of only once a crash is named.
MOST_LINES = 150
OF_THE_JOIN = re.compile(r"\b(join|merge|retire|companion|delta|summary|conflict|site)", re.I)
# So many words make a sentence that stands in one document alone.
LEAST_WORDS = 9


def name_of(document: Path) -> str:
    return str(document.relative_to(TOP))


def found(pattern: str, text: str, flags: int = 0) -> "re.Match[str]":
    """What a pattern finds in a text, which has to have it."""
    match = re.search(pattern, text, flags)
    if not match:
        raise AssertionError(f"nothing is {pattern}")
    return match


class Links(unittest.TestCase):
    """Each file that a document links is there, and has the heading that it names."""

    def test_each_leads_somewhere(self) -> None:
        count = 0
        for document in DOCUMENTS:
            for link in links_of(document):
                count += 1
                with self.subTest(f"{name_of(document)}: {link}"):
                    path, _, anchor = link.partition("#")
                    target = (document.parent / path).resolve() if path else document
                    self.assertTrue(target.exists(), "is not there")
                    if anchor:
                        self.assertIn(anchor, anchors_of(target))
        self.assertGreater(count, 100)

    def test_packaged_documents_link_each_other(self) -> None:
        """And nothing that is not in the packages."""
        named = found(r"^DOCUMENTS = \(([^)]*)\)", text_of("packaging/package"), re.M)[1]
        packed = [TOP / it for it in re.findall(r'"([^"]+)"', named)]
        self.assertGreater(len(packed), 1)
        for document in packed:
            for link in links_of(document):
                path = link.partition("#")[0]
                with self.subTest(f"{name_of(document)}: {link}"):
                    self.assertIn((document.parent / path).resolve() if path else document, packed)


def anchors_of(document: Path) -> Set[str]:
    """The anchors of the headings, as they are made where Markdown is shown."""
    text = FENCED.sub("", document.read_text(encoding="utf-8"))
    headings = re.findall(r"^#+ +(.*)$", text, re.M)
    return {re.sub(r"[^\w\- ]", "", it.lower()).replace(" ", "-") for it in headings}


def links_of(document: Path) -> List[str]:
    text = FENCED.sub("", document.read_text(encoding="utf-8"))
    # What stands between backquotes is no link, but it may be the text of one.
    text = CODE.sub(lambda it: "x" if it.end() < len(text) and text[it.end()] == "]" else "", text)
    return [it for it in LINK.findall(text) if "://" not in it]


class Clauses(unittest.TestCase):
    """PROOFS lists each public function without a clause, and no other, by its crate and its type."""

    def test_functions_without_one(self) -> None:
        listed = re.findall(r"^- `(\w+)`: ((?:`[\w:]+`(?:,\s+)?)+)$", text_of("docs/PROOFS.md"), re.M)
        self.assertEqual({crate: re.findall(r"`([\w:]+)`", names) for crate, names in listed}, without_a_clause())


class CallsToRead(unittest.TestCase):
    """The calls of the system for OUT stand in one short file, as PROOFS says."""

    def test_one_file(self) -> None:
        """No other file of its crate calls the system, but the one that opens inputs."""
        sources = TOP / "crates/cli_files/src"
        texts = {str(it.relative_to(sources)): it.read_text(encoding="utf-8") for it in sources.rglob("*.rt")}
        made = {name: CALL.findall(text) for name, text in texts.items()}
        opening = made.pop("system_disk.rt")
        self.assertEqual(({name for name, calls in made.items() if calls}, opening), ({BODIES}, ["fs::open("]))
        self.assertLess(len(texts[BODIES].splitlines()), MOST_LINES_TO_READ)


def without_a_clause() -> Dict[str, List[str]]:
    """The public functions whose head has no `ensures`, by their crates."""
    found_in: Dict[str, List[str]] = {}
    for path in sorted(TOP.glob("crates/*/src/**/*.rt")):
        crate = path.relative_to(TOP).parts[1]
        if crate not in OF_TESTS:
            found_in.setdefault(crate, []).extend(unpromised(path.read_text(encoding="utf-8")))
    return {crate: sorted(names) for crate, names in found_in.items() if names}


def unpromised(source: str) -> List[str]:
    types = [(it.start(), it[1]) for it in METHODS_OF.finditer(source)]
    names = []
    for public in PUBLIC.finditer(source):
        if "ensures" not in public[0]:
            owner = [name for at, name in types if at < public.start()][-1:] if public[1] else []
            names.append("::".join([*owner, public[2]]))
    return names


class Definitions(unittest.TestCase):
    """DEFINITIONS has the files of definitions of all crates."""

    def test_page(self) -> None:
        came = call([TOP / "docs/draw-definitions", "--check"])
        self.assertEqual(came.status, 0, came.out + came.errors)

    def test_each_file_is_linked(self) -> None:
        """Apart from those that only inner functions name."""
        page = text_of("docs/DEFINITIONS.md")
        for file in sorted(TOP.glob("crates/*/specs/*.antt")):
            if file.stem != "Lib" and not file.stem.startswith("Inner"):
                link = f"(../{file.relative_to(TOP)})"
                with self.subTest(link):
                    self.assertIn(link, page)


class Crates(unittest.TestCase):
    """ARCHITECTURE has a line for each crate of crates.txt, by families, in its order; and its layers can be drawn."""

    def test_layers(self) -> None:
        """Each crate is there once, and uses those to its right, which are above it."""
        came = call([TOP / "docs/draw-layers"])
        self.assertEqual((came.status, came.errors), (0, b""))
        uses = dict(re.findall(r"^(\w+):(.*)", text_of("crates.txt"), re.M))
        drawn: List[str] = []
        for line in came.lines:
            names = re.findall(r"[a-z]\w*", line)
            if re.match(r"[ \d]*[─├└]", line):
                drawn.append(names.pop(0))
            for used in names:
                self.assertIn(used, uses[drawn[-1]].split())
                self.assertIn(used, drawn)
        self.assertEqual(sorted(drawn), sorted(uses))

    def test_list(self) -> None:
        listed = re.findall(r"^ *(\w+) *:", text_of("crates.txt"), re.M)
        parts = re.split(r"^### ", text_of("docs/ARCHITECTURE.md").partition("\n## Families\n")[2], flags=re.M)[1:]
        lists = [re.findall(r"^- `(\w+)`: ", part, re.M) for part in parts]
        self.assertEqual(sorted(sum(lists, [])), sorted(listed))
        for names in lists:
            self.assertEqual(names, [it for it in listed if it in names])
        families = [{it.partition("_")[0] for it in names} for names in lists[1:]]
        self.assertEqual(len(set().union(*families)), sum(map(len, families)))


class Commands(unittest.TestCase):
    """What is said of the program's commands and their arguments is what its table has."""

    commands = program_commands()

    def test_all_are_read(self) -> None:
        self.assertEqual(len(self.commands), text_of(TABLE).count("    Signature {\n"))
        self.assertGreater(len(self.commands), 1)

    def test_headings_of_the_manual(self) -> None:
        """Those that write before the others, with their arguments as they stand in a line, in the order of their
        subjects."""
        sections = dict(re.findall(r"^## (.*?)\n(.*?)(?=^## |\Z)", text_of("docs/COMMANDS.md"), re.M | re.S))
        writing = those(self.commands, lambda it: it.role == "Writes")
        printing = [it for it in self.commands if it not in writing]
        for title, names in (("Commands that write", writing), ("Commands that only print", printing)):
            headings = re.findall(r"^### `(\w+)(.*)`$", sections[title], re.M)
            self.assertEqual(sorted(it for it, _ in headings), sorted(names), title)
            for name, usage in headings:
                self.assertEqual(usage, "".join(f" {it.usage()}" for it in self.commands[name]), name)

    def test_arguments_of_the_manual(self) -> None:
        """Its list of arguments has each that is no flag, paths in one item."""
        sections = dict(re.findall(r"^## (.*?)\n(.*?)(?=^## |\Z)", text_of("docs/COMMANDS.md"), re.M | re.S))
        rows = dict(re.findall(r"^- ([A-Z, ]+): (.*)$", sections["Arguments"], re.M))
        every = [it for arguments in self.commands.values() for it in arguments if it.count != "Flag"]
        for is_path in (True, False):
            came = [word for words, form in rows.items() if (form == "paths") == is_path for word in words.split(", ")]
            self.assertEqual(sorted(came), sorted({it.name for it in every if (it.role != "Says") == is_path}))

    def test_help(self) -> None:
        """The case of help lists the commands in their order, as often as it is printed."""
        tables = dict(re.findall(r"^run (--help|-h|help)\n(.*?)^ +status 0", text_of(HELPS), re.M | re.S))
        self.assertEqual([*tables], ["--help", "-h", "help"])
        for words, table in tables.items():
            names = re.findall(r"^  \|   (\w+) ", table[: table.index("Options:")], re.M)
            self.assertEqual(names, [*self.commands, "help"], words)

    def test_usage_lines(self) -> None:
        """Each of a command has its arguments."""
        lines = re.findall(r"Usage: symarch (\w+) (.*)$", text_of(HELPS), re.M)
        usages = dict.fromkeys((name, OPTIONS.sub("", usage)) for name, usage in lines)
        self.assertEqual(sorted({name for name, _ in usages}), sorted(self.commands))
        for name, usage in usages:
            wanted = " ".join(filter(None, (it.usage_in_help() for it in self.commands[name])))
            self.assertEqual(usage, wanted, name)

    def test_what_a_new_command_touches(self) -> None:
        """The files of CONTRIBUTING are there, and as many as it says; and its example is a command."""
        text = text_of("CONTRIBUTING.md").partition("## What a new command touches")[2]
        counts: Dict[str, int] = {}
        for where, files in re.findall(r"^- `(\w+)`: `(.*)`$", text, re.M):
            folder = TOP / where if (TOP / where).is_dir() else TOP / "crates" / where
            for file in files.split("`, `"):
                counts[where] = counts.get(where, 0) + 1
                self.assertTrue((folder / file).is_file(), f"{where}, {file}")
        total, some, *crates = found(r"These are (\d+) files; the (\d+) of `(\w+)` and `(\w+)` lead", text).groups()
        self.assertEqual([int(total), int(some)], [sum(counts.values()), sum(counts.get(it, 0) for it in crates)])
        self.assertIn(found(r"^As `(\w+)` does", text, re.M)[1], self.commands)

    def test_commands_of_the_cases(self) -> None:
        """Those that read an archive and those that write a file, in which `merge` is there twice; and all of them."""
        reading = those(self.commands, lambda it: it.name in ("IN", "ARCHIVE"))
        self.assertEqual(sorted(READING), sorted([*reading, "merge of two"]))
        writing = those(self.commands, lambda it: it.role == "Writes")
        self.assertEqual(sorted(WRITING), sorted([*writing, "merge of two"]))
        self.assertEqual({it.words.split()[0] for it in COMMANDS}, set(self.commands))


class Readme(unittest.TestCase):
    """README is short, names a crash before it has a word of the join, and its commands are there."""

    text = text_of("README.md")

    def test_length(self) -> None:
        self.assertLessEqual(self.text.count("\n"), MOST_LINES)

    def test_order(self) -> None:
        first = self.text[: found(BLOCK.pattern, self.text, BLOCK.flags).end()]
        self.assertIsNone(OF_THE_JOIN.search(CODE.sub("", first)))

    def test_tools(self) -> None:
        """Each tool in its lines is one of the packages."""
        tools = re.findall(r'"([\w-]+)"', found(r"^TOOLS = (.*)$", text_of("packaging/package"), re.M)[1])
        called = re.findall(r"\b(symarch-keep|symbolicate-report)(?= )", "".join(BLOCK.findall(self.text)))
        self.assertEqual(sorted(set(called)), sorted(tools))

    def test_command_lines(self) -> None:
        """As many words as a command takes, and files of their kinds."""
        commands, count = program_commands(), 0
        for line in "".join(BLOCK.findall(self.text)).splitlines():
            for words in COMMAND_LINE.findall(line.partition(" #")[0]):
                count += 1
                self.assertIsNone(fault_of_words(commands, *words.split()), line)
        self.assertGreater(count, 0)
        for name in re.findall(r"`symarch (\w+)[^`]*`", self.text):
            self.assertIn(name, commands)


class Texts(unittest.TestCase):
    """What documents show, and what more than one of them says."""

    def test_listed_bytes(self) -> None:
        """Each listing of a file in FILES has the bytes of this file, or of an archive of it."""
        listings = LISTED.findall(text_of("docs/FILES.md"))
        self.assertGreater(len(listings), 1)
        for path, listing in listings:
            digits = "".join(it.replace(" ", "") for it in BYTES.findall(listing))
            self.assertIn((TOP / path).read_bytes(), bytes.fromhex(digits), path)

    def test_listed_index(self) -> None:
        """The index of the first image, and the row of a symbol, are those of the model."""
        text = text_of("docs/FILES.md")
        listing = found(r"^Its index has (\d+) bytes\..*?```\n(.*?)```", text, re.M | re.S)
        wanted = index([(TOP / "examples/first/image").read_bytes()])
        digits = "".join(it.replace(" ", "") for it in BYTES.findall(listing[2]))
        self.assertEqual((int(listing[1]), bytes.fromhex(digits)), (len(wanted), wanted))
        row = found(r"^The row of `_copy_body` .*?, which has ([\d,]+) bytes:\n\n```\n([0-9a-f ]+)", text, re.M | re.S)
        tables = map(table_of, slices_in((TOP / "examples/crash/spool-1.dSYM").read_bytes()))
        of_size = [it for it in tables if len(it) == int(row[1].replace(",", ""))]
        self.assertEqual([bytes.fromhex(row[2]) in it for it in of_size], [True])

    def test_no_sentence_stands_in_two(self) -> None:
        seen: Dict[str, str] = {}
        for document in DOCUMENTS:
            text = " ".join(FENCED.sub("", document.read_text(encoding="utf-8")).split())
            sentences = {it for it in re.split(r"(?<=[.:;|]) ", text) if len(it.split()) >= LEAST_WORDS}
            again = [f"{seen[it]} and {name_of(document)}: {it}" for it in sorted(sentences) if it in seen]
            self.assertEqual(again, [])
            seen.update(dict.fromkeys(sentences, name_of(document)))
