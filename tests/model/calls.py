"""The calls of cases below the commands: on archives, records, sites and merges."""
from typing import Callable, Dict, List, NamedTuple, Optional

from .commands import End, Left, Limits
from .contents import RETIREMENT, Content, Fault, MergeFault, Source, admission, archive_of, merge_streams, read_archive
from .contents import read_ops, read_summary, retirement, summary_text
from .images import Refused, image_of, parts_of_file, sha, slice_of
from .lines import answer_lines, arch_word, find_lines, find_rows, is_hex, key_text, name_lines, uuid_word
from .parts import Bad, Store, first_word, text_line
from .worlds import World, read_script


class Call(NamedTuple):
    """A call: its first word, the others, the files, what limits it, and the lines that come of it."""

    name: str
    rest: str
    store: Store
    limits: Limits
    lines: List[str]

    def given(self, name: str) -> bytes:
        """The bytes of a file; none of `-`."""
        if name == "-":
            return b""
        content = self.limits.bytes(self.store, name)
        if content is None:
            raise Bad(f"no file {name}")
        return content

    def source(self, name: str) -> Source:
        source = self.limits.source(self.store, name)
        if source is None:
            raise Bad(f"no file {name}")
        return source

    def archive(self, name: str) -> Content:
        return archive_of(self.given(name))

    def see(self, content: Content, questions: str, saved: Optional[Content] = None) -> None:
        """The lines of what is held, of what is saved, and of the answers to questions."""
        self.lines.append("held: " + text_line(content.text()))
        if saved is not None:
            self.lines.append("saved: " + text_line(saved.text()))
        self.lines.extend(answers(content, questions))


def keys_of(content: Content) -> List[bytes]:
    return list(dict.fromkeys(record[1:25] for record in content.records()))


def answers(content: Content, questions: str) -> List[str]:
    """The answers to addresses, to `find`, which is each UUID, and to names."""
    lines: List[str] = []
    for question in filter(None, questions.split(" ")):
        digits = question[2:]
        if question.startswith("0x") and is_hex(digits) and 1 <= len(digits) <= 16:
            for key in keys_of(content):
                lines += answer_lines(content.answering(key), int(question, 16))[0]
        elif question == "find":
            for uuid in dict.fromkeys(key[:16] for key in keys_of(content)):
                lines += find_lines(find_rows(content, uuid), False)
        else:
            lines += name_lines(content, question.encode())
    return lines


def beside(content: Content, other: Content) -> str:
    return f"{content.len()} records, all of the other: {'yes' if content.covers(other) else 'no'}"


def record_words(record: bytes) -> str:
    is_retirement = record[0] == RETIREMENT
    digest = record[25:57] if is_retirement else sha(record[33:])
    return f"{'retire' if is_retirement else 'admit'} {key_text(record[1:25])} {digest.hex()}"


# ---- calls


def call_front(call: Call) -> None:
    source = call.source(call.name)
    content = read_archive(source, whole=False)
    fails = ", then it fails" if source.fails else ""
    call.lines.append(f"{content.len()} records, {len(source.rest())} bytes are left{fails}")


def call_whole(call: Call) -> None:
    content = read_archive(call.source(call.name))
    call.lines.append(f"{content.len()} records, {len(content.summary())} entries")


def call_operations(call: Call) -> None:
    call.lines.append(f"{len(read_ops(call.source(call.name)))} operations")


def call_summary(call: Call) -> None:
    call.lines.append(f"{len(read_summary(call.source(call.name)))} entries")


def call_part(call: Call) -> None:
    first, rest = first_word(call.rest)
    uuid = uuid_word(first)
    if uuid is None:
        raise Bad("uuid")
    second, more = first_word(rest)
    arch = arch_word(second)
    front, questions = (uuid, rest) if arch is None else (uuid + arch, more)
    content, part = read_archive(call.source(call.name)), Content()
    part.rets = {it for it in content.rets if it[1 : 1 + len(front)] == front}
    part.adms = {cover: it for cover, it in content.adms.items() if it[1 : 1 + len(front)] == front}
    call.lines.extend(map(record_words, part.records()))
    call.lines.append(f"{part.len()} records")
    call.see(part, questions)


def call_ask(call: Call) -> None:
    content = call.archive(call.name)
    call.lines.extend(answers(content, call.rest))
    call.see(content, call.rest)


def call_take(call: Call) -> None:
    content = call.archive(call.name)
    name, questions = first_word(call.rest)
    for record in read_ops(Source(call.given(name))):
        was_held = content.holds(record)
        word = "new" if content.take(record) else "held" if was_held else "covered"
        call.lines.append(f"{record_words(record)} {word}")
    call.lines.append(f"{content.len()} records")
    call.see(content, questions)


def call_take_each(call: Call) -> None:
    content = call.archive(call.name)
    name, questions = first_word(call.rest)
    call.lines.append(f"{sum([content.take(it) for it in read_ops(Source(call.given(name)))])} new")
    call.see(content, questions)


def call_join(call: Call) -> None:
    name, questions = first_word(call.rest)
    content, other = call.archive(call.name), call.archive(name)
    call.lines.append(beside(content, other))
    content.join(other)
    call.lines.append(beside(content, other))
    call.see(content, questions)


def call_absorb(call: Call) -> None:
    name, questions = first_word(call.rest)
    content, other = call.archive(call.name), call.archive(name)
    call.lines.append(beside(content, other))
    content.join(other)
    call.lines.append(f"{content.len()} records")
    call.see(content, questions)


class Site:
    """A site: what it holds and saved, and the call in which something happens there."""

    def __init__(self, call: Call, held: Content, saved: Content) -> None:
        self.call, self.held, self.saved = call, held, saved

    def act(self, word: str, given: bytes) -> None:
        if word == "new":
            self.held, self.saved = Content(), Content()
        elif word == "take":
            self.take(given)
        elif word == "retire":
            found = slice_of(given)
            if isinstance(found, str):
                raise Refused(found)
            is_new = self.held.take(retirement(found.key, sha(given)))
            self.call.lines.append(f"new: {'true' if is_new else 'false'}")
        elif word == "full":
            self.call.lines.append(text_line(self.held.text()))
        elif word == "ask":
            self.saved = self.held.copy()
            self.call.lines.append(text_line(summary_text(self.saved.summary())))
        elif word == "reply":
            self.call.lines.append(text_line(self.held.delta(read_summary(Source(given))).text()))
        elif word == "deliver":
            self.held.join(archive_of(given))
        elif word == "save":
            self.saved = self.held.copy()
        elif word == "stop":
            self.held = self.saved.copy()
        else:
            raise Bad(word)

    def take(self, given: bytes) -> None:
        parts = parts_of_file(given)
        if isinstance(parts, str):
            raise Refused(parts)
        for part in parts:
            if part is None:
                self.call.lines.append("skipped")
                continue
            record = admission(part)
            word = "added" if self.held.take(record) else "known"
            self.call.lines.append(f"{word} {key_text(record[1:25])} {sha(part).hex()}")


def call_site(call: Call) -> None:
    saved_name, rest = first_word(call.rest)
    act, rest = first_word(rest)
    input_name, questions = first_word(rest)
    held, saved_bytes, given = (call.given(it) for it in (call.name, saved_name, input_name))
    saved = archive_of(saved_bytes)
    site = Site(call, saved.copy(), saved)
    site.held.join(archive_of(held))
    site.act(act, given)
    call.see(site.held, questions, site.saved)


def call_merge_streams(call: Call) -> None:
    written = bytearray()

    def write(b: bytes) -> None:
        room = max(0, call.limits.out - len(written))
        written.extend(b[:room])
        if len(b) > room:
            raise MergeFault(None, "")

    try:
        count = merge_streams(call.source(call.name), call.source(call.rest), write)
        call.lines.append(f"{count} records, {len(written)} bytes")
    except MergeFault as fault:
        side = "Write" if fault.side is None else ("Left: ", "Right: ")[fault.side] + fault.text
        call.lines.append(f"{side}; {len(written)} bytes written")
    call.lines.append(text_line(bytes(written)))


def call_world(call: Call) -> None:
    script = read_script(call.given(call.name))
    if isinstance(script, str):
        raise Bad(script)
    world = World(int(call.rest))
    world.run(script.events)
    call.lines.append(f"{len(world.lines)} events")
    call.lines.extend(f"site {number} {text_line(it.text())}" for number, it in enumerate(world.held))


def room_of(count: int) -> int:
    """For how many records a list has room that got so many, one after another."""
    return max(4, 1 << (count - 1).bit_length()) if count else 0


def absorb_grows(one: Content, other: Content, joined: Content) -> bool:
    """Up to eight records go in one by one if as many are there; else there is room made for all of them."""
    few = other.len() <= min(8, one.len())
    return (joined.len() if few else one.len() + other.len()) > room_of(one.len())


def call_heaps(call: Call) -> None:
    """Where an archive grows is not modelled but by this: a join copies where it adds a record, and only there."""
    other_name, ops_name = call.rest.split(" ")[:2]
    one, other = call.archive(call.name), call.archive(other_name)
    ops = read_ops(Source(call.given(ops_name)))
    retired = sum(1 for it in ops if it[0] == RETIREMENT)
    call.lines.append(f"{len(ops)} copied in their own memory, {retired} without it")
    is_new = any(it not in one.adms and it not in one.rets for it in other.adms)
    grows = is_new or any(it not in one.rets for it in other.rets)
    for what, is_join in (("joined", True), ("absorbed", False)):
        content = one.copy()
        content.join(other)
        is_refused = grows if is_join else absorb_grows(one, other, content)
        call.lines.append(f"{what} without its own memory: {'false' if is_refused else 'true'}")
        call.lines.append(f"{what}: {then(content, ops)}")
        if is_join:
            call.lines.append(f"the other: {then(other.copy(), ops)}")


def then(content: Content, ops: List[bytes]) -> str:
    """How many records there are, and how many once operations were taken."""
    before = content.len()
    for record in ops:
        content.take(record)
    return f"{before} records, then {content.len()}"


class Dice:
    """Numbers that are as the program draws them."""

    def __init__(self, seed: int) -> None:
        self.number = seed

    def below(self, sides: int) -> int:
        self.number = (self.number * 6364136223846793005 + 1442695040888963407) % (1 << 64)
        return ((self.number >> 40) & 0xFF) % max(sides, 1)


def drawn(image: bytes, dice: Dice) -> bytes:
    """An image with another end, or its retirement."""
    made = bytearray(image)
    made[-1] = dice.below(6)
    for _ in range(dice.below(3)):
        made.append(dice.below(255))
    found = bytes(made)
    is_retired = dice.below(3) == 0
    return retirement(image_of(found).key, sha(found)) if is_retired else admission(found)


def call_pairs(call: Call) -> None:
    """Random pairs of archives, merged as they come and joined as values."""
    count, seed = map(int, call.rest.split(" "))
    image, dice, every = call.given(call.name), Dice(seed), bytearray()
    for number in range(count):
        left, right = Content(), Content()
        for _ in range(dice.below(12)):
            record = drawn(image, dice)
            is_retirement = record[0] == RETIREMENT
            shapes = {1: (True, False), 2: (True, True), 3: (is_retirement, not is_retirement), 4: (False, True)}
            shape = number % 5
            to_left, to_right = shapes.get(shape) or [(True, False), (False, True), (True, True)][dice.below(3)]
            if to_left:
                left.take(record)
            if to_right:
                right.take(record)
        merged = bytearray()
        records = merge_streams(Source(left.text()), Source(right.text()), merged.extend)
        left.join(right)
        assert records == left.len() and bytes(merged) == left.text(), f"pair {number}"
        every += merged
    call.lines.append(text_line(bytes(every)))


CALLS: Dict[str, Callable[[Call], None]] = {
    **{"front": call_front, "whole": call_whole, "operations": call_operations, "summary": call_summary},
    **{"part": call_part, "ask": call_ask, "take": call_take, "take-each": call_take_each, "join": call_join},
    **{"absorb": call_absorb, "site": call_site, "merge-streams": call_merge_streams, "world": call_world},
    **{"heaps": call_heaps, "pairs": call_pairs},
}


def carried(verb: str, words: str, store: Store, limits: Limits) -> Left:
    """What a call leaves; its lines up to a fault."""
    name, rest = first_word(words)
    lines: List[str] = []
    end = End("given")
    try:
        CALLS[verb](Call(name, rest, store, limits, lines))
    except (Fault, Refused) as fault:
        end = End("fault", fault.text)
    return Left(end, b"", "".join(f"{it}\n" for it in lines).encode("latin-1"))
