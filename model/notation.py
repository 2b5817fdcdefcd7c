"""A row as a line of words: its place, its object, and what the version says. Optional words stand only where the
field says something."""

import re

import connect
import money
import rows as book_rows
import transfers
import views


def shown(text):
    """A text with what isn't from ! to ~ as \\xHH, and a backslash as two."""
    return re.sub(rb"[^!-~]|\\", lambda found: escape(found[0]), text.encode()).decode()


def escape(byte):
    return b"\\\\" if byte == b"\\" else b"\\x%02x" % byte[0]


def named(name, value):
    """` name=value`, or nothing where there is none."""
    return "" if value is None else f" {name}={shown(value) if isinstance(value, str) else value}"


def amount(name, value):
    return named(name, value or None)


def metadata(item):
    return "".join(named(f"meta.{shown(key)}", text) for key, text in item["metadata"].items())


def account(_rows, _number, item):
    return item["type"] + named("email", item["email"]) + metadata(item)


def intent(rows, number, item):
    return (
        f"{item['status']} {item['amount']} {item['currency']} {item['capture_method']}"
        + amount("capturable", money.capturable(rows, number))
        + amount("received", money.received(rows, number))
        + named("method", item["payment_method"])
        + named("reason", item["reason"])
        + named("error", {"declined": "generic"}.get(item["error"], item["error"]))
        + named("charge", item["latest_charge"])
        + named("fee", item["fee"])
        + named("destination", item["destination"])
        + named("description", item["description"])
        + named("group", item["transfer_group"])
        + metadata(item)
    )


def attempt(_rows, _number, item):
    order = item["order"]
    return (f"{item['state']} {order['amount']} {order['currency']} {order['method']}"
            f" reference={order['reference']} intent={item['intent']} opener={item['opener']}")


def charge(rows, number, item):
    capture = money.capture_of(rows, number)
    return (
        f"{item['status']} {item['amount']} {item['currency']}"
        + amount("captured", money.captured(rows, number))
        + amount("refunded", money.refunded(rows, number))
        + amount("transferred", money.transferred(rows, number))
        + named("intent", item["intent"])
        + named("method", item["payment_method"])
        + named("fee", item["fee"])
        + named("destination", item["destination"])
        + (named("txn", capture.object) + named("moved", connect.transfer_of(rows, number))
           + named("taken", connect.fee_of(rows, number)) + named("on", capture.item["available_on"]) if capture else "")
        + named("dispute", item["dispute"])
        + named("description", item["description"])
        + named("group", item["transfer_group"])
        + metadata(item)
    )


def payment(rows, number, item):
    capture = money.capture_of(rows, number)
    return (f"succeeded {item['amount']} {item['currency']}" + amount("captured", money.captured(rows, number))
            + f" transfer={item['transfer']} txn={capture.object} on={capture.item['available_on']}")


def transfer(rows, number, item):
    return (f"{item['amount']} {item['currency']}" + amount("reversed", money.reversed_of(rows, number))
            + f" destination={item['destination']} payment={transfers.payment_of(rows, number)}"
            + named("charge", item["charge"]) + f" txn={txn_of(rows, number)} on={item['available_on']}"
            + named("description", item["description"]) + named("group", item["transfer_group"]) + metadata(item))


def reversal(rows, number, item):
    return (f"{item['amount']} {item['currency']} transfer={item['transfer']}" + named("refund", item["refund"])
            + f" txn={txn_of(rows, number)}" + metadata(item))


def fee(rows, number, item):
    return (f"{item['amount']} {item['currency']}" + amount("refunded", money.given_back(rows, number))
            + f" from={item['account']} charge={item['charge']} txn={txn_of(rows, number)} on={item['available_on']}")


def fee_refund(rows, number, item):
    return f"{item['amount']} {item['currency']} fee={item['fee']} txn={txn_of(rows, number)}" + metadata(item)


def txn_of(rows, source):
    """The transaction that comes from an object."""
    return next(row.object for row in money.txns(rows) if row.item["source"] == source)


def refund(rows, number, item):
    of = book_rows.latest(rows, item["charge"]).item
    return (f"{item['amount']} {of['currency']} charge={item['charge']} intent={of['intent']} txn={txn_of(rows, number)}"
            + named("reversal", views.reversal_by(rows, number)) + named("reason", item["reason"]) + metadata(item))


def dispute(rows, _number, item):
    of = book_rows.latest(rows, item["charge"]).item
    return (f"{item['status']} {money.captured(rows, item['charge'])} {of['currency']} charge={item['charge']}"
            f" intent={of['intent']}" + named("evidence", item["evidence"]))


def txn(_rows, _number, item):
    return (f"{item['type']} {item['amount']} {item['currency']} fee={item['fee']} on={item['available_on']}"
            f" source={item['source']}")


def event(_rows, _number, item):
    return f"{item['type']} of={item['of']}" + named("key", item["key"])


VERSIONS = {"account": account, "intent": intent, "attempt": attempt, "charge": charge, "refund": refund,
            "dispute": dispute, "payment": payment, "transfer": transfer, "reversal": reversal, "fee": fee,
            "fee_refund": fee_refund, "txn": txn, "event": event}

# What stands as the kind: a payment is a charge.
NAMES = {"payment": "charge"}


def line(rows, row):
    """A row; `rows` are those up to the end of its entry."""
    owner = "" if row.account == book_rows.PLATFORM else f"account={row.account} "
    version = VERSIONS[row.kind](rows, row.object, row.item)
    return f"{row.place} {row.object} {owner}{NAMES.get(row.kind, row.kind)} {version}"
