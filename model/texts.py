"""Histories as text: read, written and entered anew. Reads the case files of replays and prints what it must print.

    python3 model/texts.py FILE ..
"""

import hashlib
import re
import sys
from collections import namedtuple

import views
from book import FULL, Book
from http import Request
from intents import Waits

LONGEST = 300000
CALLERS = 2**62
CLOCK_LIMIT = 253402300799

NUMBER = re.compile(rb"0|[1-9][0-9]*")
BYTES = re.compile(rb"=((?:[0-9a-f]{2})*)")
RULINGS = {b"approved": "approve", b"declined": "decline", b"nofunds": "funds", b"challenge": "challenge"}
PARKS = {b"pending": "pending", b"failed": "failed", b"nomemory": "memory"}

# What a text tells: the setup's key, opening moment and room, and the entries, each as caller, kind and what it says.
Setup = namedtuple("Setup", "key opened entries weight")


class Fault(Exception):
    """Why a text gives no history, or none that can be entered anew."""


class Outside(Exception):
    """A line is outside the form."""


# ---- Fields


def number(field, below=2**64):
    if not NUMBER.fullmatch(field) or int(field) >= below:
        raise Outside
    return int(field)


def present(field):
    found = BYTES.fullmatch(field)
    if not found:
        raise Outside
    return bytes.fromhex(found.group(1).decode())


def octets(field):
    return None if field == b"-" else present(field)


def flag(field):
    return bool(number(field, 2))


def word_of(words):
    def read(field):
        if field not in words:
            raise Outside
        return words[field]
    return read


# kind of entry: how each of its fields is read
KINDS = {
    b"call": (present, present, octets, octets, octets, octets, flag, present),
    b"finish": (number, word_of(RULINGS)),
    b"park": (number, word_of(PARKS)),
    b"resume": (),
    b"tick": (number,),
}


def fields_of(line, word, readers):
    """The fields of a line behind its first word, each read by its reader."""
    first, *fields = line.split(b" ")
    if first != word or len(fields) != len(readers):
        raise Outside
    return [read(field) for read, field in zip(readers, fields)]


def entry_of(line):
    fields = line.split(b" ")
    if len(fields) < 3 or fields[2] not in KINDS:
        raise Outside
    caller, _, *said = fields_of(line, b"e", (number, bytes) + KINDS[fields[2]])
    return caller, fields[2], said


# ---- Reading


class Source:
    """Bytes that come in pieces; the read of one number may fail."""

    def __init__(self, data, most=65536, fault=None):
        self.data, self.most, self.fault, self.reads = data, most, fault, 0
        self.unread = b""

    def read(self):
        self.reads += 1
        if self.reads - 1 == self.fault:
            raise Fault("read fault")
        piece, self.data = self.data[: min(self.most, 4096)], self.data[min(self.most, 4096) :]
        self.unread += piece
        return bool(piece)

    def line(self, at):
        """The next line, or None where the bytes end before its LF."""
        while True:
            length = self.unread.find(b"\n")
            if length > LONGEST or length < 0 and len(self.unread) > LONGEST:
                raise Fault(f"bad line {at}")
            if length >= 0:
                line, self.unread = self.unread[:length], self.unread[length + 1 :]
                return line
            if not self.read():
                return None


def read(source):
    """The setup and the entries of a text."""
    setup, entries, count = None, [], None
    at = 0
    while True:
        at += 1
        line = source.line(at)
        if line is None and count is None:
            raise Fault("cut")
        if line is None and not source.unread:
            return setup, entries
        try:
            if line is None or count is not None:
                raise Outside
            if at == 1:
                if line != b"payhost-history 1":
                    raise Outside
            elif at == 2:
                setup = Setup(*fields_of(line, b"setup", (present, number, lambda n: number(n, 2**32), number)))
            elif line.startswith(b"end"):
                count, = fields_of(line, b"end", (number,))
                if count != len(entries):
                    raise Outside
            else:
                entries.append(entry_of(line))
        except Outside:
            raise Fault(f"bad line {at}")


# ---- Entering anew


class Replay:
    """A book, the runs that are live in it by number, each with its caller and attempt, and what was replied."""

    def __init__(self, setup):
        self.book = Book(*setup)
        self.runs, self.replies = {}, []

    def enter(self, caller, kind, said):
        """Whether the entry may come; it is entered then."""
        if caller >= CALLERS:
            return False
        if kind in (b"finish", b"park"):
            run, how = said
            if run not in self.runs or self.runs[run][0] != caller:
                return False
            attempt = self.runs.pop(run)[1]
            answer = self.book.finish(attempt, how) if kind == b"finish" else self.book.park(attempt, how)
        elif kind == b"call":
            method, path, query, auth, key, account, close, body = said
            answer = self.book.call(Request(method, path, query, auth, key, account, body, close, False))
        elif kind == b"resume":
            answer = self.book.resume()
        elif said[0] > CLOCK_LIMIT:
            return False
        else:
            answer = self.book.tick(said[0])
        if answer == FULL:
            return False
        place = len(self.book.history)
        if isinstance(answer, Waits):
            self.runs[place] = (caller, answer.attempt)
        elif answer is not None:
            digest = hashlib.sha256(views.text(answer.document).encode()).hexdigest()
            self.replies.append(f"reply {place} {answer.status} {digest}\n")
        return True


def replay(setup, entries):
    if setup.opened > CLOCK_LIMIT:
        raise Fault("illegal line 2")
    entered = Replay(setup)
    for i, entry in enumerate(entries):
        if not entered.enter(*entry):
            raise Fault(f"illegal line {i + 3}")
    return entered


# ---- Cases


def outcome(source):
    """What comes of a text: a line, and the lines of its replies."""
    try:
        setup, entries = read(source)
        entered = replay(setup, entries)
    except Fault as fault:
        return str(fault), []
    counts = f"replies {len(entered.replies)}, live {len(entered.runs)}"
    return f"entries {len(entries)}, written the same, {counts}", entered.replies


def repeated(text):
    return re.sub(r"\{([^*}]*)\*([0-9]+)\}", lambda found: found[1] * int(found[2]), text)


def unescaped(text):
    return repeated(text.replace("\\n", "\n"))


def changed(text, change):
    """What comes of a change of a text: its name, and a line."""
    name, how, to = (change[1:].split("|") + ["", ""])[:3]
    name, how, to = name.strip(), how.strip(), to.strip()
    data = text.encode()
    word, _, given = how.partition(" ")
    if word == "cut":
        source = Source(data[: len(data) - int(given)])
    elif word == "most":
        source = Source(data, most=int(given))
    elif word == "fault":
        source = Source(data, fault=int(given))
    elif word == "fronts":
        return f"{name} | {fronts(data)}\n"
    else:
        if unescaped(how) not in text:
            raise ValueError(f"nothing to change: {change!r}")
        source = Source(text.replace(unescaped(how), unescaped(to), 1).encode())
    return f"{name} | {outcome(source)[0]}\n"


def fronts(data):
    """What comes of each front that isn't all of the text: how many times the same, from the shortest."""
    found = []
    for n in range(len(data)):
        line = outcome(Source(data[:n]))[0]
        if found and found[-1][1] == line:
            found[-1][0] += 1
        else:
            found.append([1, line])
    return ", ".join(f"{times} times {line}" for times, line in found)


def run(case):
    """What a case prints."""
    name, *lines = case.split("\n")
    text = "".join(repeated(line) + "\n" for line in lines if line and line[0] not in "#~")
    line, replies = outcome(Source(text.encode()))
    return f"{name.strip()} | {line}\n" + "".join(replies) + "".join(changed(text, line) for line in lines if line[:1] == "~")


if __name__ == "__main__":
    for path in sys.argv[1:]:
        with open(path, encoding="utf-8") as file:
            for case in file.read().split("\n== ")[1:]:
                sys.stdout.write(run(case))
