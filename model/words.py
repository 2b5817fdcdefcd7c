"""The words of the command line."""

from collections import namedtuple

from parameters import CLOCK_LIMIT, read_number

USAGE = b"usage: payhost stdio|serve|drill|replay|sign|verify\n"

MOST_PATIENCE = 1000000

Plan = namedtuple("Plan", "key clock patience")


def key(word):
    """An API key: `sk_test_` and more, 9 to 255 bytes from ! to ~."""
    fits = word.startswith(b"sk_test_") and 9 <= len(word) <= 255
    return word if fits and all(0x21 <= byte <= 0x7E for byte in word) else None


def number(most):
    def read(word):
        value = read_number(word.decode("latin-1"))
        return value if value is not None and value <= most else None
    return read


OPTIONS = {
    b"--key": ("key", key),
    b"--clock": ("clock", number(CLOCK_LIMIT)),
    b"--patience": ("patience", number(MOST_PATIENCE)),
}


def plan(words):
    """What the words ask for, or None where they ask for nothing that payhost does."""
    if not words or words[0] != b"stdio" or len(words) % 2 == 0:
        return None
    given = {}
    for option, word in zip(words[1::2], words[2::2]):
        if option not in OPTIONS:
            return None
        name, read = OPTIONS[option]
        value = read(word)
        if value is None or name in given:
            return None
        given[name] = value
    return Plan(given.get("key", b"sk_test_payhost"), given.get("clock", 1700000000), given.get("patience", 1000))
