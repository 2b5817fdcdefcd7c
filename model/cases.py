"""Reads case files and prints what the program must print.

    python3 model/cases.py FILE ..
"""

import re
import sys

import acquirer
import history
import session
from book import Book

ESCAPE = re.compile(rb"\\(?:([rnt\\])|x([0-9A-Fa-f]{2})|\{([^*}]*)\*([0-9]+)\})")
PLAIN = {b"r": b"\r", b"n": b"\n", b"t": b"\t", b"\\": b"\\"}


def plain(text):
    """The bytes of a text with escapes. In a text that is repeated nothing is an escape."""
    def replaced(found):
        letter, code, repeated, times = found.groups()
        if letter:
            return PLAIN[letter]
        if code:
            return bytes([int(code, 16)])
        return repeated * int(times)
    return ESCAPE.sub(replaced, text)


def cases_of(data):
    """The cases of a file: name, fields, lines. What stands before the first one describes the file."""
    found = []
    for line in data.split(b"\n"):
        if line.startswith(b"== "):
            name, *fields = [field.strip() for field in line[3:].split(b"|")]
            found.append((name, fields, []))
        elif found and not line.startswith(b"# "):
            found[-1][2].append(line)
    return found


# ---- Sessions


def begins_request(line):
    return line.startswith(b"> ") or line.startswith(b">> ")


def input_of(lines):
    """The bytes that a session's requests are."""
    data = b""
    lines = list(lines)
    while lines:
        line = lines.pop(0)
        if line.startswith(b">> "):
            data += plain(line[3:])
        elif line.startswith(b"> "):
            head, body = [], []
            while lines and lines[0] != b"" and not begins_request(lines[0]):
                head.append(lines.pop(0))
            while lines and not begins_request(lines[0]):
                body.append(lines.pop(0))
            data += request_bytes(line[2:], head, plain(b"\n".join(body).strip(b"\n")))
        elif line.strip():
            raise ValueError(f"not understood: {line!r}")
    return data


def request_bytes(line, head, body):
    """A request line, headers and a body, with what the short forms stand for."""
    if line.startswith(b"-"):
        line = line[1:]
    elif b" HTTP/" not in line:
        line += b" HTTP/1.1"
    lines = [plain(line)]
    for header in head:
        if header == b"key":
            header = b"Authorization: Bearer sk_test_payhost"
        if header.lower() == b"content-length: ?":
            header = header[:-1] + b"%d" % len(body)
        lines.append(plain(header))
    if body and not any(header.lower().startswith(b"content-length:") for header in lines):
        lines.append(b"Content-Length: %d" % len(body))
    return b"".join(line + b"\r\n" for line in lines + [b""]) + body


def numbers(words):
    return [int(word) for word in words]


def run_session(name, fields, lines):
    """What a session case prints."""
    line = [plain(word) for word in fields[0].split()] if fields else []
    reads, failing_reads, writes, failing_writes, script = [4096], [], 4096, [], None
    data = input_of(lines)
    for field in fields[1:]:
        words = field.split()
        if words[0] == b"cues":
            script = [word.decode() for word in words[1:]]
        elif words == [b"reads", b"each"]:
            reads = range(1, max(len(data), 1) + 1)
        elif words[0] == b"reads":
            reads = numbers(words[1:])
        elif words[:2] == [b"failing", b"reads"]:
            failing_reads = numbers(words[2:])
        elif words[0] == b"writes":
            writes = int(words[1])
        elif words[:2] == [b"failing", b"writes"]:
            failing_writes = numbers(words[2:])
        else:
            raise ValueError(f"no such field: {field!r}")
    # Pieces never matter but to which read fails.
    results = []
    for most in reads if failing_reads else list(reads)[:1]:
        source = session.Source(data, most, failing_reads)
        sink = session.Sink(writes, failing_writes)
        status = session.run(line, source, sink, script)
        results.append((most, status, sink.written))
    shown = b"status %d\n%s" % results[0][1:]
    for most, status, written in results:
        if (status, written) != results[0][1:]:
            shown = b"differs in reads of %d" % most
    return b"== %s\n%s\n" % (name, shown)


# ---- Sessions over one book


def run_book(name, fields, lines):
    """What a case of sessions over one book prints."""
    entries, limit, turns, failing = 100, 10, 1000, []
    for field in fields:
        words = field.split()
        if words == [b"no", b"book"]:
            entries = None
        elif words[0] == b"entries":
            entries = int(words[1])
        elif words[0] == b"limit":
            limit = int(words[1])
        elif words[0] == b"turns":
            turns = int(words[1])
        elif words[:2] == [b"failing", b"writes"]:
            failing = numbers(words[2:])
        else:
            raise ValueError(f"no such field: {field!r}")
    printed = b"== %s\n" % name
    if entries is None:
        return printed + ending(session.Sink(4096, failing), without_book)
    book = Book(b"sk_test_payhost", 1700000000, entries)
    for data in sessions_of(lines):
        source, link = session.Source(data, 4096, []), acquirer.Simulated()
        serve = lambda sink: session.serve(book, source, sink, link, turns, limit)
        printed += ending(session.Sink(4096, failing), serve)
    return printed + b"".join(entry(*deed) for deed in book.history)


def sessions_of(lines):
    """The inputs of the sessions, which a line `--` stands between."""
    parts = [[]]
    for line in lines:
        if line == b"--":
            parts.append([])
        else:
            parts[-1].append(line)
    return [input_of(part) for part in parts]


def without_book(sink):
    session.last_words(sink, "no_memory")
    raise MemoryError


def ending(sink, serve):
    """How a session ended, and what it wrote."""
    try:
        replies, stop, status = serve(sink)
        closed = f"{stop}({status})" if stop == "Refused" else stop
        shown = "broken off: Full" if stop == "Full" else f"{replies} replies, {closed}"
    except session.WriteFault:
        shown = "broken off: WriteFault"
    except MemoryError:
        shown = "broken off: NoMemory"
    return shown.encode() + b"\n" + sink.written + b"\n"


RULINGS = {"approve": "Approved", "decline": "Declined(Generic)", "funds": "Declined(NoFunds)", "challenge": "Challenge"}


def entry(deed, *said):
    """A line for an entry of a history."""
    if deed == "finish":
        said = said[0], RULINGS.get(said[1], said[1])
    elif deed == "park":
        said = said[0], said[1].capitalize()
    return " ".join([deed, *map(str, said)]).encode() + b"\n"


# ---- Histories


def run_history(name, fields, lines):
    """What a history case prints."""
    given = {b"clock": b"1700000000", b"entries": b"200000", b"weight": b"536870912", b"key": b"sk_test_payhost"}
    for field in fields:
        word, _, value = field.partition(b" ")
        if word not in given:
            raise ValueError(f"no such field: {field!r}")
        given[word] = value.strip()
    steps = history.Steps(plain(given[b"key"]), *numbers([given[b"clock"], given[b"entries"], given[b"weight"]]))
    printed = [b"== " + name]
    for line in lines:
        if line.strip():
            printed.append(line)
            printed += steps.step(line, plain)
    return b"\n".join(printed) + b"\n\n"


KINDS = {"sessions": run_session, "books": run_book, "histories": run_history}


def kind_of(path, cases):
    """The nearest folder that is named so says it; elsewhere a session is known by its requests."""
    for folder in reversed(path.split("/")[:-1]):
        if folder in KINDS:
            return KINDS[folder]
    is_sent = any(begins_request(line) for _, _, lines in cases for line in lines)
    return run_session if is_sent else run_history


def main(paths):
    for path in paths:
        with open(path, "rb") as file:
            cases = cases_of(file.read())
        run = kind_of(path, cases)
        for case in cases:
            sys.stdout.buffer.write(run(*case))


if __name__ == "__main__":
    main(sys.argv[1:])
