"""The book: entries one after another, each answered by the entries before it, and the rows that they add."""

import connect
import disputes
import forms
import intents
import keys
import parameters
import refunds
import rows as book_rows
import transfers
import views
from errors import Refusal, Reply

MOST_ENTRIES = 200000
MOST_WEIGHT = 536870912

# call: what carries it out. Each answers the document of the reply, or that it waits for the acquirer, or refuses
# before it adds a row.
CALLS = {
    "create_intent": intents.create,
    "get_intent": views.retrieve("intent"),
    "update_intent": intents.update,
    "confirm_intent": intents.confirm,
    "capture_intent": intents.capture,
    "cancel_intent": intents.cancel,
    "authenticate": intents.authenticate,
    "get_charge": views.retrieve("charge", "payment"),
    "create_refund": refunds.create,
    "get_refund": views.retrieve("refund"),
    "get_dispute": views.retrieve("dispute"),
    "send_evidence": disputes.send_evidence,
    "close_dispute": disputes.close,
    "create_account": connect.create_account,
    "get_account": views.retrieve("account"),
    "create_transfer": transfers.transfer,
    "get_transfer": views.retrieve("transfer"),
    "reverse_transfer": transfers.reverse,
    "get_fee": views.retrieve("fee"),
    "refund_fee": transfers.refund_fee,
    "get_balance": views.balance,
    "get_txn": views.retrieve("txn"),
}

FULL = "full"

PARKS = {"pending": "acquirer_pending", "failed": "acquirer_failed", "memory": "no_memory"}


class Book:
    """A history: its time, its rows, the runs that wait for the acquirer, and how much room is used."""

    def __init__(self, key, opened, entries=MOST_ENTRIES, weight=MOST_WEIGHT):
        self.key, self.time = key, opened
        self.most_entries, self.most_weight = entries, weight
        self.history = []  # what was entered: call; finish, run, ruling; park, run, why; tick, moment
        self.requests_weight = 0
        self.rows = book_rows.opening(opened)
        self.live = {}  # the attempts whose runs wait, the earliest first, and the number of each one's run
        self.parked = []  # the attempts that wait to be taken up again, the earliest park first
        self.records = keys.Records()

    # ---- Room

    def used(self):
        """The entries, and one for the end of each run that waits."""
        return len(self.history) + len(self.live)

    def weight(self):
        return self.requests_weight + self.records.weight() + sum(book_rows.weight(row) for row in self.rows)

    def is_full(self, request):
        too_many = self.used() + 2 > self.most_entries
        return too_many or self.weight() + length(request) > self.most_weight

    # ---- Entries

    def call(self, request):
        """A request: answered with a reply, or with the attempt that waits, or FULL, where it isn't entered."""
        if self.is_full(request):
            return FULL
        self.history.append(("call",))
        self.requests_weight += length(request)
        try:
            if request.auth != self.key:
                raise Refusal("wrong_key")
            account = connect.account_named(self.rows, request.account)
            call = parameters.read_call(request, account)
            key = keys.key_of(request)
        except Refusal as refusal:
            return refusal.reply()
        if key is None:
            return self.own_answer(account, call, None)
        shape = (request.method, request.path, forms.read(request.query, request.body))
        return self.keyed(account, key, shape, call)

    def keyed(self, account, key, shape, call):
        """A call under an idempotency key: by the latest record of the key."""
        record = self.records.latest(account, key, self.time)
        if record is None:
            record = self.records.open(account, key, shape, self.time)
            answer = self.own_answer(account, call, key)
            if isinstance(answer, intents.Waits):
                record.attempt = answer.attempt
            else:
                record.reply = answer
            return answer
        if record.shape != shape:
            return Refusal("key_differs").reply()
        if record.reply is not None:
            return record.reply._replace(replayed=True, retry=False)
        if record.attempt in self.parked:
            return self.take_up(record.attempt)
        return Refusal("key_in_use").reply()

    def own_answer(self, account, call, key):
        """What a call of an account comes to by itself: its own refusals in their order, and what it adds."""
        name, identity, given = call
        try:
            if name == "set_clock":
                return Reply(200, self.set_clock(given["now"]))
            batch = self.batch(account, key)
            answer = CALLS[name](batch, identity, given)
            batch.close()
        except Refusal as refusal:
            return refusal.reply()
        if isinstance(answer, intents.Waits):
            self.live[answer.attempt] = len(self.history)
            return answer
        return Reply(200, answer)

    def take_up(self, attempt):
        """A further run of an attempt that is parked, under the same reference."""
        self.parked.remove(attempt)
        batch = self.batch(book_rows.PLATFORM)
        intents.take_up(batch, attempt)
        batch.close()
        self.live[attempt] = len(self.history)
        return intents.Waits(attempt)

    def resume(self):
        """The parked attempt whose last park stands earliest is taken up again; None where none is parked."""
        if self.used() + 2 > self.most_entries:
            return FULL
        self.history.append(("resume",))
        return self.take_up(self.parked[0]) if self.parked else None

    def set_clock(self, now):
        if now < self.time:
            raise Refusal("clock_backwards")
        self.time = now
        return views.clock(now)

    def finish(self, attempt, ruling):
        """The acquirer's ruling on an attempt: the reply to the call that began it."""
        self.history.append(("finish", self.live.pop(attempt), ruling))
        record = self.records.of_attempt(attempt)
        batch = self.batch(book_rows.PLATFORM, record and record.key)
        try:
            reply = Reply(200, intents.settle(batch, attempt, ruling))
        except Refusal as refusal:
            reply = refusal.reply()
        batch.close()
        if record:
            record.reply = reply
        return reply

    def park(self, attempt, why):
        """The end of a run without a ruling."""
        self.history.append(("park", self.live.pop(attempt), why))
        batch = self.batch(book_rows.PLATFORM)
        intents.park(batch, attempt)
        batch.close()
        self.parked.append(attempt)
        return Refusal(PARKS[why]).reply()

    def tick(self, now):
        """Time has passed on the host's own clock. It takes one entry, and never goes back."""
        if self.used() + 1 > self.most_entries:
            return FULL
        self.history.append(("tick", now))
        self.time = max(self.time, now)
        return None

    def order(self, attempt):
        """What the acquirer is asked for an attempt."""
        return self.rows[attempt - 1].item["order"]

    def batch(self, account, key=None):
        return book_rows.Batch(self.rows, self.time, account, len(self.history), key)


def length(request):
    """What a request weighs: the lengths of its fields."""
    fields = (request.method, request.path, request.query, request.auth, request.key, request.account, request.body)
    return sum(len(field) for field in fields if field is not None)
