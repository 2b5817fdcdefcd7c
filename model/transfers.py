"""Transfers, their reversals, and application fees given back: what the platform gives to accounts, and takes back."""

import money
import parameters
import rows as book_rows
import views
from errors import Refusal


# ---- Transfers


def transfer(batch, _identity, given):
    """The platform gives an amount to a connected account, drawn on a charge where it names one."""
    if batch.account != book_rows.PLATFORM:
        raise Refusal("platform_only")
    to = book_rows.named(batch.rows, given["destination"], "account")
    if to in (None, book_rows.PLATFORM):
        raise Refusal("no_object", "destination")
    amount, currency = given["amount"], given["currency"]
    source, moment = drawn_on(batch, given), batch.time
    if source is not None:
        moment = max(moment, money.capture_of(batch.rows, source).item["available_on"])
    elif amount > money.balance(batch.rows, book_rows.PLATFORM, currency, batch.time)[0]:
        raise Refusal("too_little")
    made = add_transfer(batch, amount, currency, to, source, moment, {
        "description": given.get("description"),
        "metadata": parameters.first_metadata(given),
        "transfer_group": given.get("transfer_group"),
    })
    txn(batch, to, "payment", amount, currency, moment, payment_of(batch.rows, made))
    if source is not None:
        batch.change(source)
    batch.announce("transfer.created", made)
    return views.document(batch, made)


def drawn_on(batch, given):
    """The captured card charge that a transfer is to be drawn on, with so much left in that currency; None where it names none."""
    name = "source_transaction"
    if name not in given:
        return None
    charge = book_rows.named(batch.rows, given[name], "charge")
    if charge is None or money.capture_of(batch.rows, charge) is None:
        raise Refusal("no_object", name)
    if batch.item(charge)["currency"] != given["currency"]:
        raise Refusal("invalid", "currency")
    if given["amount"] > money.captured(batch.rows, charge) - money.transferred(batch.rows, charge):
        raise Refusal("invalid", "amount")
    return charge


def add_transfer(batch, amount, currency, to, charge, moment, kept):
    """A transfer, the transaction that takes it from the platform, and the payment that it gives."""
    made = batch.add("transfer", {"amount": amount, "currency": currency, "destination": to, "charge": charge,
                                  "available_on": moment, **kept}, book_rows.PLATFORM)
    txn(batch, book_rows.PLATFORM, "transfer", -amount, currency, moment, made)
    batch.add("payment", {"transfer": made, "amount": amount, "currency": currency}, to)
    return made


def payment_of(rows, made):
    """The payment that a transfer gave."""
    return next(row.object for row in rows if row.kind == "payment" and row.item["transfer"] == made)


# ---- What is taken back, and given back


def take_back(batch, of, amount, metadata, refund=None):
    """A reversal of so much of a transfer, and its two transactions; no version of the transfer, and no event."""
    item = batch.item(of)
    moment = max(batch.time, item["available_on"])
    reversal = batch.add("reversal", {"transfer": of, "amount": amount, "currency": item["currency"], "refund": refund,
                                      "metadata": metadata}, book_rows.PLATFORM)
    txn(batch, book_rows.PLATFORM, "transfer", amount, item["currency"], moment, reversal)
    txn(batch, item["destination"], "adjustment", -amount, item["currency"], moment, reversal)
    return reversal


def give_back(batch, of, amount, metadata):
    """A refund of so much of an application fee, and its two transactions; no version of the fee, and no event."""
    item = batch.item(of)
    moment = max(batch.time, item["available_on"])
    back = batch.add("fee_refund", {"fee": of, "amount": amount, "currency": item["currency"], "metadata": metadata},
                     book_rows.PLATFORM)
    txn(batch, book_rows.PLATFORM, "application_fee_refund", -amount, item["currency"], moment, back)
    txn(batch, item["account"], "adjustment", amount, item["currency"], moment, back)
    return back


def reverse(batch, identity, given):
    """A transfer, or a part of it, is taken back."""
    of = batch.owned(identity, "transfer")
    amount = of_what_is_left(given, batch.item(of)["amount"] - money.reversed_of(batch.rows, of))
    reversal = take_back(batch, of, amount, parameters.first_metadata(given))
    batch.change(of)
    batch.announce("transfer.reversed", of)
    return views.document(batch, reversal)


def refund_fee(batch, identity, given):
    """An application fee, or a part of it, is given back to the account that it was taken from."""
    of = batch.owned(identity, "fee")
    amount = of_what_is_left(given, batch.item(of)["amount"] - money.given_back(batch.rows, of))
    back = give_back(batch, of, amount, parameters.first_metadata(given))
    batch.change(of)
    batch.announce("application_fee.refunded", of)
    return views.document(batch, back)


def of_what_is_left(given, left):
    """The amount that a call names, or all that is left."""
    amount = given.get("amount", left)
    if left == 0 or amount > left:
        raise Refusal("invalid", "amount")
    return amount


def txn(batch, owner, sort, amount, currency, moment, source):
    batch.add("txn", {"type": sort, "amount": amount, "currency": currency, "fee": 0, "available_on": moment,
                      "source": source}, owner)
