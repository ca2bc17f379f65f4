"""Scripts of rehearsals, what happens at their sites, and frames, told a second time by docs/FILES.md."""
from typing import List, NamedTuple, Optional, Set, Tuple, Union

from .contents import Content, admission, retirement, summary_text
from .images import parts_of_file
from .lines import address_word, arch_word, decimal, digest_word, is_hex, uuid_word

MOST_SITES, MOST_EVENTS = 64, 10_000


class Event(NamedTuple):
    """What happens at a site: its word, and what that takes: bytes, a retirement or the number of a message."""

    word: str
    site: int
    text: bytes = b""
    message: int = 0


class Script(NamedTuple):
    """The number of sites, and the events."""

    sites: int
    events: List[Event]


class Frame(NamedTuple):
    """A key, where the image was loaded, and an address."""

    key: bytes
    load: Optional[int]
    address: int


def lines_of(data: bytes) -> List[Tuple[int, bytes]]:
    """The lines that say something, with their numbers."""
    lines = data.split(b"\n")
    return [(number, it) for number, it in enumerate(lines, 1) if it and not it.startswith(b"#")]


def count_of_lines(data: bytes) -> int:
    return data.count(b"\n") + (not data.endswith(b"\n") and data != b"")


def event_of(fields: List[str]) -> Optional[Event]:
    """The event of a line; None where it is none."""
    site = decimal(fields[1]) if len(fields) > 1 else None
    if site is None:
        return None
    word, rest = fields[0], fields[2:]
    if word == "take" and len(rest) == 1 and rest[0] and len(rest[0]) % 2 == 0 and is_hex(rest[0]):
        return Event(word, site, bytes.fromhex(rest[0]))
    if word == "retire" and len(rest) == 3:
        uuid, arch, digest = uuid_word(rest[0]), arch_word(rest[1]), digest_word(rest[2])
        if uuid is not None and arch is not None and digest is not None:
            return Event(word, site, retirement(uuid + arch, digest))
    if word in ("full", "ask", "save", "stop") and not rest:
        return Event(word, site)
    if word in ("reply", "deliver") and len(rest) == 1:
        message = decimal(rest[0])
        if message is not None:
            return Event(word, site, message=message)
    return None


def fields_of(line: bytes) -> List[str]:
    try:
        return line.decode("ascii").split(" ")
    except UnicodeDecodeError:
        return ["?"]


def read_script(data: bytes) -> Union[str, Script]:
    """A script, or the text of its fault."""
    sites: Optional[int] = None
    events: List[Event] = []
    for number, line in lines_of(data):
        fields = fields_of(line)
        if sites is None:
            sites = decimal(fields[1]) if len(fields) == 2 and fields[0] == "sites" else None
            if sites is None or not 1 <= sites <= MOST_SITES:
                return f"NoSites at line {number}"
            continue
        event = event_of(fields)
        if event is None:
            return f"BadEvent at line {number}"
        if len(events) == MOST_EVENTS:
            return f"TooManyEvents at line {number}"
        events.append(event)
    return f"NoSites at line {count_of_lines(data) + 1}" if sites is None else Script(sites, events)


def frame_of(fields: List[str]) -> Optional[Frame]:
    """The frame of a line; None where it is none."""
    if len(fields) != 4:
        return None
    uuid, arch, address = uuid_word(fields[0]), arch_word(fields[1]), address_word(fields[3])
    load = None if fields[2] == "-" else address_word(fields[2])
    if uuid is None or arch is None or address is None or (load is None and fields[2] != "-"):
        return None
    return Frame(uuid + arch, load, address)


def read_frames(data: bytes) -> Union[str, List[Frame]]:
    """The frames of a text, or the text of its fault."""
    frames = []
    for number, line in lines_of(data):
        frame = frame_of(line.decode("latin-1").split(" "))
        if frame is None:
            return f"BadFrame at line {number}"
        frames.append(frame)
    return frames


# ---- sites


# A message is a content, or the entries of a summary.
Message = Union[Content, Set[bytes]]


class World:
    """Sites, what they hold and saved, the messages that were sent, and the outcomes without their numbers."""

    def __init__(self, sites: int) -> None:
        self.held = [Content() for _ in range(sites)]
        self.saved = [Content() for _ in range(sites)]
        self.messages: List[Message] = []
        self.lines: List[str] = []

    def run(self, events: List[Event]) -> None:
        for event in events:
            self.lines.append(self.outcome(event))

    def outcome(self, event: Event) -> str:
        if event.site >= len(self.held):
            return "refused NoSite"
        if event.word in ("reply", "deliver") and event.message >= len(self.messages):
            return "refused NoMessage"
        held = self.held[event.site]
        if event.word == "take":
            return self.take(held, event.text)
        if event.word == "retire":
            return "retired" if held.take(event.text) else "known"
        if event.word == "full":
            return self.send(held.copy(), held.text())
        if event.word == "ask":
            self.saved[event.site] = held.copy()
            return self.send(held.summary(), summary_text(held.summary()))
        if event.word == "reply":
            return self.reply(held, self.messages[event.message])
        if event.word == "deliver":
            return self.deliver(held, self.messages[event.message])
        if event.word == "save":
            self.saved[event.site] = held.copy()
            return "saved"
        self.held[event.site] = self.saved[event.site].copy()
        return "stopped"

    def send(self, message: Message, text: bytes) -> str:
        self.messages.append(message)
        return f"sent {len(self.messages) - 1} {len(text)}"

    def reply(self, held: Content, message: Message) -> str:
        if isinstance(message, Content):
            return "refused NotASummary(BadMagic at 0)"
        delta = held.delta(message)
        return self.send(delta, delta.text())

    @staticmethod
    def deliver(held: Content, message: Message) -> str:
        if not isinstance(message, Content):
            return "refused Refused(BadMagic at 0)"
        held.join(message)
        return "delivered"

    @staticmethod
    def take(held: Content, text: bytes) -> str:
        parts = parts_of_file(text)
        if isinstance(parts, str):
            return f"refused File({parts})"
        slices = [it for it in parts if it is not None]
        added = sum([held.take(admission(it)) for it in slices])
        return f"took {added} {len(slices) - added} {len(parts) - len(slices)}"
