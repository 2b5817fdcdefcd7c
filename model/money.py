"""Currencies, fees, what charges, refunds and transfers come to, and balances. Amounts are in minor units of the currency.

Every amount that changes is a sum over the rows.
"""

import rows as book_rows

MOST = 99999999
TWO_DAYS = 172800
DISPUTE_FEE = 1500

# currency: least amount of a payment, rate of the fee in hundredths of a percent, fixed part of the fee.
# In the order in which a balance lists them.
CURRENCIES = {
    "eur": (50, 150, 25),
    "gbp": (30, 150, 20),
    "jpy": (50, 360, 0),
    "usd": (50, 290, 30),
}


def minimum(currency):
    return CURRENCIES[currency][0]


def fee(currency, amount):
    """The fee of a captured amount, its rate's part to the nearest unit, a half up."""
    _, rate, fixed = CURRENCIES[currency]
    return (amount * rate + 5000) // 10000 + fixed


def txns(rows):
    """The balance transactions; each has one version."""
    return [row for row in rows if row.kind == "txn"]


def captures(rows, charge):
    """The transactions that a charge, or a payment, was captured by: one, or none."""
    return [row for row in txns(rows) if row.item["type"] in ("charge", "payment") and row.item["source"] == charge]


def capture_of(rows, charge):
    return next(iter(captures(rows, charge)), None)


def captured(rows, charge):
    """What was captured of a charge."""
    return sum(row.item["amount"] for row in captures(rows, charge))


def refunded(rows, charge):
    """What the refunds of a charge gave back."""
    return sum(row.item["amount"] for row in rows if row.kind == "refund" and row.item["charge"] == charge)


def transferred(rows, charge):
    """What transfers drew on a charge."""
    return sum(row.item["amount"] for row in rows
               if row.kind == "transfer" and row.object == row.place and row.item["charge"] == charge)


def reversed_of(rows, transfer):
    """What the reversals of a transfer took back."""
    return sum(row.item["amount"] for row in rows if row.kind == "reversal" and row.item["transfer"] == transfer)


def given_back(rows, fee):
    """What was given back of an application fee."""
    return sum(row.item["amount"] for row in rows if row.kind == "fee_refund" and row.item["fee"] == fee)


def part(whole, amount, of):
    """The part of a whole that an amount is of another, rounded down."""
    return whole * amount // of


def capturable(rows, intent):
    """What a capture of an intent may still take: what its latest charge authorised, while that is held."""
    item = book_rows.latest(rows, intent).item
    if item["status"] != "requires_capture":
        return 0
    return book_rows.latest(rows, item["latest_charge"]).item["amount"]


def received(rows, intent):
    """What was captured of all charges of an intent."""
    charges = {row.object for row in rows if row.kind == "charge" and row.item["intent"] == intent}
    return sum(captured(rows, charge) for charge in charges)


def net(txn):
    return txn["amount"] - txn["fee"]


def balance(rows, account, currency, time):
    """The available and the pending balance of an account in a currency."""
    moved = [row.item for row in txns(rows) if row.account == account and row.item["currency"] == currency]
    available = sum(net(txn) for txn in moved if txn["available_on"] <= time)
    pending = sum(net(txn) for txn in moved if txn["available_on"] > time)
    return available, pending


def currencies_of(rows, account):
    """The currencies of an account's transactions, usd where there are none."""
    used = {row.item["currency"] for row in txns(rows) if row.account == account}
    return [currency for currency in CURRENCIES if currency in used] or ["usd"]
