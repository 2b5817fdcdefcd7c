"""A history step by step: what each entry is answered, and the rows that it adds."""

import money
import notation
import views
from book import FULL, Book
from http import Request
from intents import Waits

RULINGS = ("approve", "decline", "funds", "challenge")


class Steps:
    """A book, and the tickets in hand: the attempts that wait, the earliest first."""

    def __init__(self, key, opened, entries, weight):
        self.book = Book(key, opened, entries, weight)

    def step(self, line, plain):
        """The lines that a step prints: its answer and its rows."""
        before = len(self.book.rows)
        answer = self.answer(line, plain)
        added = [notation.line(self.book.rows, row) for row in self.book.rows[before:]]
        return [f"-> {answer}".encode()] + [f"   {row}".encode() for row in added]

    def answer(self, line, plain):
        headers = {}
        for word, field in ((b"as ", "auth"), (b"account ", "account"), (b"under ", "key")):
            if line.startswith(word):
                value, line = line[len(word) :].split(b": ", 1)
                headers[field] = None if word == b"as " and value == b"-" else plain(value)
        words = line.split()
        if len(words) > 1 and words[1].startswith(b"/"):
            return self.call(words, plain, headers)
        word, given = words[0].decode(), [word.decode() for word in words[1:]]
        if word in RULINGS:
            return said(self.book.finish(self.ticket(given), word))
        if word == "park":
            return said(self.book.park(self.ticket(given[1:]), given[0]))
        if word == "tick":
            return self.book.tick(int(given[0])) or "done"
        if word == "resume":
            return self.waiting(self.book.resume())
        if word == "entries":
            return f"{len(self.book.history)} entries, {len(self.book.rows)} rows"
        if word == "balance":
            available, pending = money.balance(self.book.rows, int(given[0]), given[1], self.book.time)
            return f"available {available} pending {pending}"
        raise ValueError(f"not understood: {line!r}")

    def ticket(self, given):
        return int(given[0]) if given else next(iter(self.book.live))

    def call(self, words, plain, headers):
        method, target, *body = words
        path, mark, query = target.partition(b"?")
        body = plain(body[0]) if body and body != [b"-"] else b""
        fields = {"auth": self.book.key, "account": None, "key": None, **headers}
        request = Request(method=plain(method), path=plain(path), query=plain(query) if mark else None,
                          body=body, close=False, waits=False, **fields)
        return self.waiting(self.book.call(request))

    def waiting(self, answer):
        if answer == FULL or answer is None:
            return answer or "done"
        return f"waits for {answer.attempt}" if isinstance(answer, Waits) else said(answer)


def said(reply):
    return f"{reply.status} {'replayed ' if reply.replayed else ''}{views.text(reply.document)}"
