"""Images whose symbols take long to be put in order, since two have each value and long names that overlap. Half of the
image is names, and half symbols."""
import random

from images import with_symbols
from measure import MEGABYTE

ENTRY = 16


def letter(size):
    """One letter, from any two places on."""
    return b"\0" + b"a" * (size - 1), random_pair


def twice(size):
    """Two texts that are the same, from a place of the one and the same place of the other on."""
    half = size // 2 - 1
    text = bytes(random.choices(range(ord("a"), ord("z") + 1), k=half))
    return b"\0" + text + b"A" + text, lambda names: same_places(len(names), half + 1)


def fibonacci(size):
    """The word of Fibonacci, from any two places on."""
    last, word = b"a", b"ab"
    while len(word) < size:
        last, word = word, word + last
    return b"\0" + word[1:size], random_pair


def random_pair(names):
    return [random.randrange(1, len(names) // 2) for _ in range(2)]


def same_places(size, apart):
    place = random.randrange(1, size // 2 - 2)
    return [place, place + apart]


KINDS = (letter, twice, fibonacci)


def hostile_image(kind, megabytes):
    """An image of so many megabytes of one of these kinds."""
    size = megabytes * MEGABYTE // 2
    random.seed(megabytes)
    names, pair = kind(size)
    symbols = ((name, value) for value in range(size // ENTRY // 2) for name in pair(names))
    return with_symbols(megabytes, symbols, names)
