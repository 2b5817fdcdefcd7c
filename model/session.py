"""A session: requests from a source, replies to a sink, and the exit status of the program."""

import acquirer
import http
import views
import words
from book import FULL, Book
from errors import Refusal
from intents import Waits

MOST_REQUESTS = 100000
PIECE = 4096

# Exit statuses
ENDED, CLOSED, USAGE, READ_FAULT, WRITE_FAULT, CUT, FULL_HISTORY = 0, 1, 2, 3, 4, 5, 9


class ReadFault(Exception):
    pass


class WriteFault(Exception):
    pass


class Source:
    """Bytes in reads of at most so many, with the numbers of the reads that fail, from 0."""

    def __init__(self, data, most, failing):
        self.left, self.most, self.failing, self.number = data, most, failing, 0

    def read(self):
        number, self.number = self.number, self.number + 1
        if number in self.failing:
            raise ReadFault
        size = min(self.most, PIECE)
        piece, self.left = self.left[:size], self.left[size:]
        return piece


class Sink:
    """Keeps what is written, in writes of at most so many bytes, with the numbers of the writes that fail."""

    def __init__(self, most, failing):
        self.written, self.most, self.failing, self.number = b"", most, failing, 0

    def write(self, data):
        while data:
            number, self.number = self.number, self.number + 1
            if number in self.failing:
                raise WriteFault
            self.written += data[: self.most]
            data = data[self.most :]


# How a session ends that serves its input to an end: the statuses of the program
STATUSES = {"End": ENDED, "Asked": ENDED, "Limit": CLOSED, "Refused": CLOSED, "Cut": CUT, "Full": FULL_HISTORY}


def run(line, source, sink, script=None):
    """Runs the program with these words; answers its exit status. Without a script the acquirer is simulated."""
    plan = words.plan(line)
    try:
        if plan is None:
            sink.write(words.USAGE)
            return USAGE
        link = acquirer.Simulated() if script is None else acquirer.Scripted(script)
        _, stop, _ = serve(Book(plan.key, plan.clock), source, sink, link, plan.patience)
        return STATUSES[stop]
    except ReadFault:
        return READ_FAULT
    except WriteFault:
        return USAGE if plan is None else WRITE_FAULT


def serve(book, source, sink, link, patience, limit=MOST_REQUESTS):
    """One request after another, each answered before the next is read. Answers how many replies there were, why it
    stopped, and the status of a closing reply."""
    data, ended = b"", False
    answered = 0
    while answered < limit:
        item = http.first_item(data, ended)
        if item.kind == "more":
            piece = source.read()
            data, ended = data + piece, piece == b""
            continue
        if item.kind in ("end", "cut"):
            return answered, "End" if item.kind == "end" else "Cut", None
        if item.kind == "close":
            last_words(sink, item.value)
            return answered, "Refused", Refusal(item.value).reply().status
        request, data = item.value, item.rest
        if request.waits:
            sink.write(http.CONTINUE)
        reply = answer(book, request, link, patience)
        if reply == FULL:
            last_words(sink, "history_full")
            return answered, "Full", None
        answered += 1
        sink.write(written(reply, request.close or answered == limit))
        if request.close:
            return answered, "Asked", None
    return answered, "Limit", None


def last_words(sink, problem):
    """A reply that closes the session and is to no call: it takes no memory, so its head and its body are written one
    after the other."""
    head, mark, body = written(Refusal(problem).reply(), True).partition(b"\r\n\r\n")
    sink.write(head + mark)
    sink.write(body)


def answer(book, request, link, patience):
    """The reply to a request; where it waits for the acquirer, that is asked while the patience lasts."""
    reply = book.call(request)
    if not isinstance(reply, Waits):
        return reply
    ruling = acquirer.ruling(link, book.order(reply.attempt), patience)
    if ruling in ("pending", "failed"):
        return book.park(reply.attempt, ruling)
    return book.finish(reply.attempt, ruling)


def written(reply, close):
    return http.written(reply.status, views.text(reply.document), reply.retry, close, reply.replayed)
