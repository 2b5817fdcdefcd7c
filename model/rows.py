"""Rows: each is one version of one object. They only grow; an object's number is the place of its first row."""

from collections import namedtuple

from errors import Refusal

Row = namedtuple("Row", "place object time account kind item")

PLATFORM = 1

PREFIXES = {
    "account": "acct_", "intent": "pi_", "charge": "ch_", "payment": "py_", "refund": "re_", "dispute": "dp_",
    "transfer": "tr_", "reversal": "trr_", "fee": "fee_", "fee_refund": "fr_", "txn": "txn_", "event": "evt_",
}


def opening(time):
    """The rows of a new book: the platform's own account."""
    return [Row(1, 1, time, PLATFORM, "account", {"type": "standard", "email": None, "metadata": {}})]


def latest(rows, number):
    """The present version of an object."""
    return next(row for row in reversed(rows) if row.object == number)


def created(rows, number):
    """When its first version was made."""
    return rows[number - 1].time


def printed_id(kind, number):
    return f"{PREFIXES[kind]}{number:016}"


def named(rows, text, kind, account=None):
    """The number of the object of this kind (and account) that a text names, or None."""
    for row in rows:
        first_version = row.place == row.object
        if first_version and row.kind == kind and printed_id(kind, row.object) == text:
            if account is None or row.account == account:
                return row.object
    return None


class Batch:
    """What one entry adds: object rows in order, and behind them the events in the order announced."""

    def __init__(self, rows, time, account, entry, key=None):
        self.rows, self.time, self.account, self.entry, self.key = rows, time, account, entry, key
        self.events = []

    def next_number(self):
        return len(self.rows) + 1

    def item(self, number):
        return latest(self.rows, number).item

    def account_of(self, number):
        return latest(self.rows, number).account

    def owned(self, identity, *kinds):
        """The account's object of one of these kinds that a path names."""
        for kind in kinds:
            number = named(self.rows, identity, kind, self.account)
            if number is not None:
                return number
        raise Refusal("no_object")

    def add(self, kind, item, account=None):
        """A new object; answers its number."""
        number = self.next_number()
        self.rows.append(Row(number, number, self.time, account or self.account, kind, item))
        return number

    def change(self, number, **fields):
        """A new version of an object, with these fields changed."""
        last = latest(self.rows, number)
        place = self.next_number()
        self.rows.append(Row(place, number, self.time, last.account, last.kind, {**last.item, **fields}))

    def announce(self, sort, number):
        self.events.append((sort, number))

    def close(self):
        """Adds the event rows. An event belongs to its object's account."""
        for sort, number in self.events:
            self.add("event", {"type": sort, "of": number, "key": self.key}, self.account_of(number))


def texts(item):
    """The texts of a version that a row weighs: what was given, not what is chosen from a list or derived."""
    found = [item.get(name) for name in ("payment_method", "description", "transfer_group", "email", "evidence", "key")]
    found += [text for pair in item.get("metadata", {}).items() for text in pair]
    return [text for text in found if text is not None]


def weight(row):
    return 256 + sum(len(text.encode()) for text in texts(row.item))
