"""A crash of 50 frames in ten images, and the companions that answer for it."""
import random
import uuid

from dsyms import base_of, code_of
from tests.support.made_images import uuid_of

IMAGES, FRAMES = 10, 50
LOAD, APART = 0x2_0000_0000, 0x1000_0000


def renumbered(path, number):
    """A companion under another UUID."""
    content = path.read_bytes()
    return content.replace(uuid_of(content), number.to_bytes(16, "big"), 1)


def write_report(path, asked, count=FRAMES):
    """A crash whose frames are in these companions in turn."""
    random.seed(1)
    frames, images = [], []
    for place in range(count):
        number = place % len(asked)
        companion = asked[number][1]
        first, size = code_of(companion)
        load, offset = LOAD + APART * number, random.randrange(size) + first - base_of(companion)
        frames.append(f"{place:<4}{companion.stem:<30}\t0x{load + offset:016x} 0x{load:x} + {offset}\n")
    for place, (number, companion) in enumerate(asked):
        load, name = LOAD + APART * place, companion.stem
        images.append(f"0x{load:x} - 0x{load + APART - 1:x} {name} x86_64 <{uuid.UUID(int=number)}> /{name}\n")
    path.write_text("".join(["Code Type: X86-64\n\nThread 0 Crashed:\n", *frames, "\nBinary Images:\n", *images]))
