"""Idempotency keys: which requests have one, and the records of what they asked and were answered."""

import views
from errors import Refusal

DAY = 86400

MOST_BYTES = 255


def key_of(request):
    """The key of a request, or None. Only a POST under /v1/ has one; an empty one is none."""
    if request.method != b"POST" or not request.path.startswith(b"/v1/") or not request.key:
        return None
    if len(request.key) > MOST_BYTES:
        raise Refusal("key_too_long")
    try:
        return request.key.decode("utf-8")
    except UnicodeDecodeError:
        raise Refusal("key_not_text")


class Record:
    """What a call asked under a key, the attempt that it began, and the reply, once there is one."""

    def __init__(self, account, key, shape, opened):
        self.account, self.key, self.shape, self.opened = account, key, shape, opened
        self.attempt, self.reply = None, None


class Records:
    """The records that were opened, in their order."""

    def __init__(self):
        self.all = []

    def latest(self, account, key, now):
        """The latest record of a key, while it is less than a day old."""
        for record in reversed(self.all):
            if (record.account, record.key) == (account, key):
                return record if now - record.opened < DAY else None
        return None

    def open(self, account, key, shape, now):
        self.all.append(Record(account, key, shape, now))
        return self.all[-1]

    def of_attempt(self, attempt):
        """The record whose call began an attempt."""
        return next((record for record in self.all if record.attempt == attempt), None)

    def weight(self):
        """The lengths of the bodies that are saved."""
        return sum(len(views.text(record.reply.document).encode()) for record in self.all if record.reply)
