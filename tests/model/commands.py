"""What commands read, write and print, told a second time by docs/COMMANDS.md."""
from __future__ import annotations

import functools
from typing import Any, Callable, Dict, Iterable, List, NamedTuple, Optional, Sequence, Set, Tuple, TypeVar, Union

from .contents import OLD_ARCHIVE, Content, Fault, MergeFault, Source, admission, copy_unnamed, covering, magic_fault
from .contents import merge_streams, merged_by_definition, read_archive, read_ops, read_summary, retirement
from .contents import summary_text
from .images import parts_of_file, sha
from .indexes import EntryAt, Failed, Placed, Stale, answering, claim_in, index_stream, living, parts_at
from .indexes import read_all, read_index_under, slice_at, test_length
from .lines import Answer, answer_lines, escaped, find_lines, find_rows, index_rows, key_text, name_lines, row_of
from .lines import Told, address_text, table_frame_lines, table_text, told_lines
from .pages import Changed
from .parts import Store
from .plans import ANY_NUMBER, Plan, takes
from .tables import Table
from .worlds import World, read_frames, read_script

UNLIMITED = 1 << 62
Read = TypeVar("Read")
# What opens an input by its path; None where it cannot be opened.
Open = Callable[[str], Optional[Source]]
# The parts of a file, of which a skipped one is None; or why it is passed over.
Parts = Union[List[Optional[bytes]], str]
# The lines of a command over the content of its archive.
Lines = Callable[[Content], List[str]]


class CommandFault(Exception):
    """What ends a command: the place of an input or of the output, and what is wrong there."""

    def __init__(self, place: Optional[str], text: str) -> None:
        super().__init__(place, text)
        self.place, self.text = place, text


class KeyFault(CommandFault):
    """A table was changed, or has no lines, which are asked for, or a slice that is read was changed: with --slices its
    key alone is refused."""


class NoMemory(CommandFault):
    """There is no memory to open an input."""

    def __init__(self) -> None:
        super().__init__(None, "out of memory")


class Short:
    """An output that takes so many bytes."""

    def __init__(self, most: int) -> None:
        self.most, self.data = most, bytearray()

    def push(self, b: bytes, place: str) -> None:
        room = self.most - len(self.data)
        self.data += b[:room]
        if len(b) > room:
            raise CommandFault(place, f"failed after {self.most} bytes")


class Out(Short):
    """OUT's draft, which is put in place once, where there is a place."""

    def __init__(self, most: int, places: int) -> None:
        super().__init__(most)
        self.places, self.is_draft = places, True

    def place(self) -> None:
        if not self.places:
            raise CommandFault("output", f"failed after {len(self.data)} bytes")
        self.is_draft = False


class Limits(NamedTuple):
    """How many bytes OUT and the report take, how many inputs are opened and drafts put in place; and of which input
    how many bytes are there, or are read before it fails."""

    out: int = UNLIMITED
    report: int = UNLIMITED
    opened: int = UNLIMITED
    places: int = UNLIMITED
    cut: Optional[Tuple[str, int]] = None
    read: Optional[Tuple[str, int]] = None

    def but(self, **changes: Any) -> Limits:
        return self._replace(**changes)

    def bytes(self, store: Store, name: str) -> Optional[bytes]:
        content = store.get(name)
        return content[: self.cut[1]] if content is not None and self.cut and self.cut[0] == name else content

    def source(self, store: Store, name: str) -> Optional[Source]:
        content = self.bytes(store, name)
        if content is None:
            return None
        return Source(content, self.read[1] if self.read and self.read[0] == name else None)


class End(NamedTuple):
    """How a command or a call ended: `done` with a status, `refused`, `wanting` or `fault` with a text, or `given`."""

    kind: str
    text: str = ""
    status: int = 0


class Left(NamedTuple):
    """What a command or a call leaves: how it ended, OUT or the draft of it, the report, and notes."""

    end: End
    out: bytes
    report: bytes
    is_draft: bool = False
    notes: Sequence[str] = ()


class Indexed(NamedTuple):
    """An archive with its index: the device of the index, its entries, the length of the archive by it, and the device
    of the archive."""

    tables: Placed
    entries: List[bytes]
    size: int
    archive: Placed


# An address, and the address at which the image was loaded, if it is one of memory.
Where = Tuple[int, Optional[int]]


class Asked(NamedTuple):
    """A key, and what is asked under it."""

    key: bytes
    where: Where


class Run:
    """A command: what opens its inputs, OUT and the report."""

    def __init__(self, open_source: Open, out: Out, report: Short) -> None:
        self.open, self.out, self.report = open_source, out, report
        self.notes: List[str] = []

    # ---- inputs

    def opened(self, path: str, place: str) -> Source:
        source = self.open(path)
        if source is None:
            raise CommandFault(place, "cannot open")
        return source

    def read(self, path: str, place: str, read: Callable[[Source], Read]) -> Read:
        source = self.opened(path, place)
        try:
            return read(source)
        except Fault as fault:
            raise CommandFault(place, fault.text) from None

    def archive(self, path: str, place: str) -> Content:
        return self.read(path, place, read_archive)

    def join(self, paths: Iterable[str], first: int = 0) -> Content:
        """The join of archives, in the order of the words."""
        made = Content()
        for number, path in enumerate(paths, first):
            made.join(self.archive(path, f"archive {number}"))
        return made

    @staticmethod
    def by_places(number: int, read: Callable[[], Read]) -> Read:
        """What is read of the archive of this number, at the places that its index names."""
        try:
            return read()
        except Fault as fault:
            raise CommandFault(f"archive {number}", fault.text) from None
        except Stale as stale:
            raise (CommandFault if stale.number is None else KeyFault)(f"index {number}", stale.text) from None

    @staticmethod
    def test_pairs(archives: Sequence[str], indexes: Sequence[str]) -> None:
        if len(archives) < len(indexes):
            raise CommandFault(f"index {len(archives)}", "NoArchive")
        if len(indexes) < len(archives):
            raise CommandFault(f"archive {len(indexes)}", "NoIndex")

    def indexed(self, archives: Sequence[str], indexes: Sequence[str], uuids: Optional[Set[bytes]]) -> List[Indexed]:
        """The archives with their indexes, of which the entries under these UUIDs are read, or all, each before the
        length of its archive."""
        self.test_pairs(archives, indexes)
        found: List[Indexed] = []
        for number, (path, index) in enumerate(zip(archives, indexes)):
            tables = Placed(self.opened(index, f"index {number}"))
            try:
                entries, size = read_all(tables) if uuids is None else read_index_under(tables, uuids)
            except Fault as fault:
                raise CommandFault(f"index {number}", fault.text) from None
            placed = Placed(self.opened(path, f"archive {number}"))
            self.by_places(number, functools.partial(test_length, size, placed))
            found.append(Indexed(tables, entries, size, placed))
        return found

    def entries(self, plan: Plan, uuids: Optional[Set[bytes]] = None) -> List[bytes]:
        return [it for it in self.indexed([plan.one["archive"]], plan.indexes, uuids)[0].entries if it]

    def named(self, indexed: Sequence[Indexed], fronts: Sequence[bytes]) -> Content:
        """The join of what the indexes name under these fronts in their archives."""
        made = Content()
        for number, it in enumerate(indexed):
            made.join(self.by_places(number, functools.partial(parts_at, it.entries, it.size, it.archive, fronts)))
        return made

    def asked(self, plan: Plan, front: bytes) -> Content:
        """The join of the archives, by their indexes if they have some."""
        archives = [plan.one["archive"], *plan.more]
        if not plan.indexes:
            return self.join(archives)
        return self.named(self.indexed(archives, plan.indexes, {front}), [front])

    @staticmethod
    def told_of(it: EntryAt, table: Placed, places: Sequence[Where], with_frames: bool) -> List[Told]:
        """What the table of an entry tells of places, and then the lines of frames if they are asked for."""
        claim = claim_in(it.entry)
        try:
            symbols = Table(table.take, claim)
            texts = [table_text(symbols, *where) for where in places]
            symbols.pages.forget()
            lines = symbols.lines() if with_frames else None
            if with_frames and lines is None:
                raise KeyFault(f"index {it.input}", f"NoLines at entry {it.number}")
            frames = [table_frame_lines(symbols.base, lines, *where) if lines else [] for where in places]
        except Changed:
            raise KeyFault(f"index {it.input}", f"Damaged at entry {it.number}") from None
        except Failed:
            raise CommandFault(f"index {it.input}", f"Device at {claim.offset}") from None
        return [(it.entry[25:57], text, own) for text, own in zip(texts, frames)]

    def by_index(self, indexed: Sequence[Indexed], key: bytes, places: Sequence[Where], plan: Plan) -> List[Answer]:
        """The answers to places under a key: of tables, or of the slices under this key alone if two are tied."""
        those = answering(key, [it.entries for it in indexed])
        if those is None:
            images = self.named(indexed, [key]).answering(key)
            return [answer_lines(images, *where, plan.lines) for where in places]
        columns = [self.told_of(it, indexed[it.input].tables, places, plan.lines) for it in those]
        return [told_lines(where[0], [column[number] for column in columns]) for number, where in enumerate(places)]

    def by_indexes(
        self, indexed: Sequence[Indexed], asked: Sequence[Asked], plan: Plan
    ) -> Tuple[List[Answer], Dict[bytes, KeyFault]]:
        """The answers to places under keys, key by key; and with --slices the faults of keys that are refused."""
        told: Dict[Asked, Answer] = {}
        refused: Dict[bytes, KeyFault] = {}
        for key in sorted({it.key for it in asked}):
            places = sorted({it.where for it in asked if it.key == key}, key=lambda where: (where[1] or 0, where[0]))
            try:
                answers = self.by_index(indexed, key, places, plan)
            except KeyFault as fault:
                if not plan.slices:
                    raise
                refused[key] = fault
                answers = [([f"{address_text(where[0])} !"], False) for where in places]
            told.update({Asked(key, where): answer for where, answer in zip(places, answers)})
        return [told[it] for it in asked], refused

    def answers(
        self, plan: Plan, archives: Sequence[str], asked: Sequence[Asked], uuids: Set[bytes]
    ) -> Tuple[List[Answer], Dict[bytes, KeyFault]]:
        """The answers to places under keys: of the archives, or by their indexes if they have some; and the faults of
        keys that are refused."""
        if plan.indexes:
            return self.by_indexes(self.indexed(archives, plan.indexes, uuids), asked, plan)
        content = self.join(archives)
        images = {key: content.answering(key) for key in {it.key for it in asked}}
        return [answer_lines(images[it.key], *it.where, plan.lines) for it in asked], {}

    def whole(self, path: str, place: str) -> bytes:
        source = self.opened(path, place)
        content = source.rest()
        if source.fails:
            raise CommandFault(place, "Device")
        return content

    def before(self, path: str, read: Callable[[], Read]) -> Read:
        """What is read of inputs before the archive of a path, whose own fault is told if one of them is refused."""
        try:
            return read()
        except CommandFault:
            self.archive(path, "archive 0")
            raise

    # ---- outputs

    def tell(self, lines: Sequence[str]) -> None:
        if lines:
            self.report.push(("\n".join(lines) + "\n").encode("latin-1"), "report")

    def told(self, lines: Sequence[str]) -> int:
        """The status of a command that prints what it finds."""
        self.tell(lines)
        return 0 if lines else 1

    def write(self, text: bytes) -> None:
        self.out.push(text, "output")
        self.out.place()

    def push(self, b: bytes) -> None:
        self.out.push(b, "output")

    def end(self, records: int, lines: Sequence[str]) -> int:
        """The end of a command whose draft has taken a whole text of so many records."""
        self.out.place()
        self.tell([*lines, f"archive: {records} records, {len(self.out.data)} bytes"])
        return 0

    def merge(self, path: str, right: bytes, lines_of: Lines = lambda content: []) -> int:
        """The archive of a path, merged with the text of another one as it comes; the lines are those of its
        content."""
        source = self.opened(path, "archive 0")
        try:
            records = merge_streams(source, Source(right), self.push)
        except MergeFault as fault:
            raise CommandFault("archive 0", fault.text) from None
        return self.end(records, lines_of(read_archive(Source(source.data))))

    # ---- commands

    def run(self, plan: Plan) -> int:
        command: Callable[[Plan], int] = getattr(self, f"run_{plan.command}")
        return command(plan)

    @takes("out")
    def run_new(self, plan: Plan) -> int:
        self.push(Content().text())
        return self.end(0, [])

    def parts(self, number: int, path: str) -> List[Optional[bytes]]:
        """The parts of a file; none of one that is skipped."""
        parts = parts_of_file(self.whole(path, f"file {number}"))
        if isinstance(parts, str):
            raise CommandFault(f"file {number}", parts)
        return [*parts]

    def files(self, plan: Plan) -> List[Parts]:
        """The parts of each file, or why it is passed over."""
        found: List[Parts] = []
        for number, path in enumerate(plan.files):
            try:
                found.append(self.parts(number, path))
            except NoMemory:
                raise
            except CommandFault as fault:
                if not plan.keep_going:
                    raise
                found.append(fault.text)
        return found

    @takes("in out file*", flags="--keep-going")
    def run_admit(self, plan: Plan) -> int:
        files = self.before(plan.one["in"], lambda: self.files(plan))
        parts = [part for its in files if not isinstance(its, str) for part in its]
        came = Content([admission(part) for part in parts if part is not None])

        def lines_of(content: Content) -> List[str]:
            retired = [it for it in came.records() if covering(it) in content.rets]
            words = [f"{key_text(it[1:25])} {sha(it[33:]).hex()}" for it in retired]
            self.notes = [f"{it} is retired in IN, and does not come in" for it in words]
            lines = []
            for number, its in enumerate(files):
                refused = [f"refused {its}"] if isinstance(its, str) else []
                taken = [] if isinstance(its, str) else [self.taken(content, *it) for it in enumerate(its)]
                lines += [f"file {number} {it}" for it in (*refused, *taken)]
            return lines

        self.merge(plan.one["in"], came.text(), lines_of)
        return 2 if any(isinstance(it, str) for it in files) else 0

    @staticmethod
    def taken(content: Content, number: int, part: Optional[bytes]) -> str:
        """What becomes of a part, which the content takes."""
        if part is None:
            return f"slice {number} skipped"
        record = admission(part)
        word = "added" if content.take(record) else "known"
        return f"slice {number} {word} {key_text(record[1:25])} {sha(part).hex()}"

    @takes("in out uuid arch digest")
    def run_retire(self, plan: Plan) -> int:
        record, words = retirement(plan.key, plan.digest), f"{key_text(plan.key)} {plan.digest.hex()}"

        def lines_of(content: Content) -> List[str]:
            if record not in content.adms:
                self.notes = [f"IN has no slice {words}"]
            return [f"{'known' if content.holds(record) else 'retired'} {words}"]

        return self.merge(plan.one["in"], Content([record]).text(), lines_of)

    @takes("in out file*")
    def run_merge(self, plan: Plan) -> int:
        if len(plan.files) == 1:
            return self.merge_two(plan.one["in"], plan.files[0])
        files = self.before(plan.one["in"], lambda: self.join(plan.files, 1))
        return self.merge(plan.one["in"], files.text())

    def merge_two(self, path: str, other: str) -> int:
        """Both are read as OUT is written. FILE is opened after the magic of IN."""
        left = self.opened(path, "archive 0")
        try:
            right = self.opened(other, "archive 1")
        except CommandFault:
            fault = magic_fault(left)
            if fault:
                raise CommandFault("archive 0", fault) from None
            raise
        records, stopped = 0, None
        try:
            records = merge_streams(left, right, self.push)
        except MergeFault as told:
            stopped = told
        if not left.fails and not right.fails:
            wanted = merged_by_definition(left.data, right.data)
            assert (bytes(self.out.data), stopped and (stopped.side, stopped.text)) == wanted, "merge"
        if stopped:
            raise CommandFault(f"archive {stopped.side}", stopped.text)
        return self.end(records, [])

    @takes("in out")
    def run_migrate(self, plan: Plan) -> int:
        return self.merge(plan.one["in"], Content().text())

    @takes("in out ops")
    def run_apply(self, plan: Plan) -> int:
        records = self.before(plan.one["in"], lambda: self.read(plan.one["ops"], "ops", read_ops))

        def lines_of(content: Content) -> List[str]:
            new = sum([content.take(it) for it in records])
            return [f"applied: {new} new, {len(records) - new} known"]

        return self.merge(plan.one["in"], Content(records).text(), lines_of)

    @takes("archive uuid", is_asking=True, indexes=ANY_NUMBER)
    def run_find(self, plan: Plan) -> int:
        if len(plan.indexes) == 1 and not plan.more:
            rows = index_rows(self.entries(plan, {plan.uuid}), plan.uuid)
        else:
            rows = find_rows(self.asked(plan, plan.uuid), plan.uuid)
        return self.told(find_lines(rows, False))

    @takes("archive", indexes=1)
    def run_list(self, plan: Plan) -> int:
        if plan.indexes:
            rows = index_rows(self.entries(plan))
        else:
            rows = find_rows(self.archive(plan.one["archive"], "archive 0"))
        return self.told(find_lines(rows, True))

    @takes("archive uuid arch out", is_asking=True, indexes=ANY_NUMBER)
    def run_extract(self, plan: Plan) -> int:
        if plan.indexes:
            return self.extract_by_entry(plan)
        return self.extract_of(plan, self.join([plan.one["archive"], *plan.more]))

    def extract_by_entry(self, plan: Plan) -> int:
        indexed = self.indexed([plan.one["archive"], *plan.more], plan.indexes, {plan.key[:16]})
        entries = [it.entries for it in indexed]
        if plan.wanted is not None:
            found = [it for it in living(plan.key, entries) if it.entry[25:57] == plan.wanted][:1]
        else:
            those = answering(plan.key, entries)
            if those is None:
                return self.extract_of(plan, self.named(indexed, [plan.key]))
            found = those
        if len(found) != 1:
            self.tell(find_lines(index_rows([it.entry for it in found]), False))
            return 1
        one = found[0]
        archive = indexed[one.input].archive
        content = self.by_places(one.input, functools.partial(slice_at, one, archive))
        given = archive.left
        try:
            self.by_places(one.input, functools.partial(slice_at, one, archive))
        except CommandFault:
            self.push(content[:given])
            raise
        return self.extracted(plan, content)

    def extract_of(self, plan: Plan, content: Content) -> int:
        live = content.live()
        held = sorted(it for it in live if it[1:25] == plan.key)
        if plan.wanted is not None:
            found = [it for it in held if sha(it[33:]) == plan.wanted]
        else:
            found = [it for it in held if row_of(it)[1] == "dsym"] or held
        if len(found) != 1:
            self.tell(find_lines([row_of(it) for it in found], False))
            return 1
        return self.extracted(plan, found[0][33:])

    def extracted(self, plan: Plan, content: bytes) -> int:
        self.write(content)
        self.tell([f"slice {key_text(plan.key)} {sha(content).hex()}, {len(content)} bytes"])
        return 0

    @takes("archive name", is_asking=True)
    def run_name(self, plan: Plan) -> int:
        content = self.join([plan.one["archive"], *plan.more])
        name = plan.one["name"].encode()
        lines = name_lines(content, name)
        if not lines and name_lines(content, b"_" + name):
            self.notes = [f"there is no symbol {escaped(name)}, but there is _{escaped(name)}"]
        return self.told(lines)

    @takes("archive uuid arch address*", is_asking=True, indexes=ANY_NUMBER, flags="--lines --slices")
    def run_symbolicate(self, plan: Plan) -> int:
        asked = [Asked(plan.key, (it, plan.load)) for it in plan.addresses]
        return self.answered(plan, [plan.one["archive"], *plan.more], asked, [plan.key])

    def answered(self, plan: Plan, archives: Sequence[str], asked: Sequence[Asked], keys: Sequence[bytes]) -> int:
        answers, faults = self.answers(plan, archives, asked, {it[:16] for it in keys})
        slices = self.slices(plan, archives, keys) if plan.slices else []
        refused = [f"{key_text(key)} refused {faults[key].place}: {faults[key].text}" for key in sorted(faults)]
        self.tell([*(line for lines, _ in answers for line in lines), *slices, *refused])
        if refused:
            return 2
        return 0 if all(is_one for _, is_one in answers) else 1

    def slices(self, plan: Plan, archives: Sequence[str], keys: Sequence[bytes]) -> List[str]:
        """The lines of the slices that answer under the UUIDs of keys, and of the keys under which none does."""
        if plan.indexes:
            uuids = {it[:16] for it in keys}
            rows = index_rows([it for one in self.indexed(archives, plan.indexes, uuids) for it in one.entries if it])
        else:
            rows = find_rows(self.join(archives))
        retired = {(key, digest) for key, state, digest in rows if state == "retired"}
        live = {(key, digest): state for key, state, digest in rows if (key, digest) not in retired}
        companions = {key for (key, _), state in live.items() if state == "dsym"}
        found = sorted(it for it, state in live.items() if state == "dsym" or it[0] not in companions)
        wanted = [(key, digest) for key, digest in found if key[:16] in {it[:16] for it in keys}]
        absent = sorted({*keys} - {key for key, _ in wanted})
        lines = [f"{key_text(key)} {live[key, digest]} {digest.hex()}" for key, digest in wanted]
        return [*lines, *(f"{key_text(key)} absent" for key in absent)]

    @takes("frames archives*", indexes=ANY_NUMBER, flags="--lines --slices")
    def run_frames(self, plan: Plan) -> int:
        if plan.indexes:
            self.test_pairs(plan.archives, plan.indexes)
        frames = read_frames(self.whole(plan.one["frames"], "frames"))
        if isinstance(frames, str):
            raise CommandFault("frames", frames)
        asked = [Asked(it.key, (it.address, it.load)) for it in frames]
        return self.answered(plan, plan.archives, asked, [it.key for it in frames])

    @takes("archive out", indexes=1)
    def run_summary(self, plan: Plan) -> int:
        if plan.indexes:
            entries = {it[:57] for it in self.entries(plan)}
        else:
            entries = self.archive(plan.one["archive"], "archive 0").summary()
        text = summary_text(entries)
        self.write(text)
        self.tell([f"summary: {len(entries)} entries, {len(text)} bytes"])
        return 0

    @takes("archive out")
    def run_index(self, plan: Plan) -> int:
        source = self.opened(plan.one["archive"], "archive 0")
        if source.data[: source.end][:8] == OLD_ARCHIVE:
            raise CommandFault("archive 0", "OldArchive")
        try:
            entries = index_stream(source, self.push)
        except Fault as fault:
            raise CommandFault("archive 0", fault.text) from None
        self.out.place()
        self.tell([f"index: {entries} entries, {len(self.out.data)} bytes"])
        return 0

    @takes("archive summary out")
    def run_delta(self, plan: Plan) -> int:
        entries = self.before(plan.one["archive"], lambda: self.read(plan.one["summary"], "summary", read_summary))
        source = self.opened(plan.one["archive"], "archive 0")
        try:
            records = copy_unnamed(source, entries, self.push)
        except Fault as fault:
            raise CommandFault("archive 0", fault.text) from None
        return self.end(records, [])

    @takes("script")
    def run_rehearse(self, plan: Plan) -> int:
        script = read_script(self.whole(plan.one["script"], "script"))
        if isinstance(script, str):
            raise CommandFault("script", script)
        world = World(script.sites)
        world.run(script.events)
        lines = [f"{number} {it}" for number, it in enumerate(world.lines)]
        for number, content in enumerate(world.held):
            text = content.text()
            lines.append(f"site {number} {content.len()} {len(text)} {sha(text).hex()}")
        self.tell(lines)
        return 0


def run_plan(plan: Plan, open_source: Open, limits: Limits) -> Left:
    out, report = Out(limits.out, limits.places), Short(limits.report)
    command = Run(open_source, out, report)
    try:
        end = End("done", status=command.run(plan))
    except NoMemory as fault:
        end = End("wanting", fault.text)
    except CommandFault as fault:
        end = End("refused", f"{fault.place}: {fault.text}")
    return Left(end, bytes(out.data), bytes(report.data), out.is_draft, command.notes)
