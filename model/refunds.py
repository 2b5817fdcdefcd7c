"""Refunds: a refund takes an amount of a captured charge from the balance; where it says so, its part of the charge's transfer and
of the application fee too."""

import connect
import money
import parameters
import rows as book_rows
import transfers
import views
from errors import Refusal


def charge_named(batch, given):
    """The charge that is to be refunded: by its own id, or as the latest charge of a PaymentIntent."""
    if "charge" in given:
        charge = book_rows.named(batch.rows, given["charge"], "charge")
        if charge is None:
            raise Refusal("no_object", "charge")
        return charge
    intent = book_rows.named(batch.rows, given["payment_intent"], "intent")
    charge = batch.item(intent)["latest_charge"] if intent else None
    if charge is None:
        raise Refusal("no_object", "payment_intent")
    return charge


def create(batch, _identity, given):
    charge = charge_named(batch, given)
    item = batch.item(charge)
    capture = money.capture_of(batch.rows, charge)
    if capture is None:
        raise Refusal("not_captured")
    if item["dispute"] and batch.item(item["dispute"])["status"] != "won":
        raise Refusal("disputed")
    left = money.captured(batch.rows, charge) - money.refunded(batch.rows, charge)
    if left == 0:
        raise Refusal("refunded")
    amount = given.get("amount", left)
    if amount > left:
        raise Refusal("invalid", "amount")
    transfer = asked(given, "reverse_transfer", connect.transfer_of(batch.rows, charge))
    fee = asked(given, "refund_application_fee", connect.fee_of(batch.rows, charge))
    account = batch.account_of(charge)
    refund = batch.add("refund", {
        "amount": amount,
        "charge": charge,
        "reason": given.get("reason"),
        "metadata": parameters.first_metadata(given),
    }, account)
    batch.add("txn", {
        "type": "refund",
        "amount": -amount,
        "currency": item["currency"],
        "fee": 0,
        "available_on": max(batch.time, capture.item["available_on"]),
        "source": refund,
    }, account)
    captured = money.captured(batch.rows, charge)
    back = fee_back = 0
    if transfer is not None:
        whole = batch.item(transfer)["amount"]
        back = part(whole, whole - money.reversed_of(batch.rows, transfer), amount, left, captured)
    if fee is not None:
        whole = batch.item(fee)["amount"]
        fee_back = part(whole, whole - money.given_back(batch.rows, fee), amount, left, captured)
    if back:
        transfers.take_back(batch, transfer, back, {}, refund)
    if fee_back:
        transfers.give_back(batch, fee, fee_back, {})
    batch.change(charge)
    batch.announce("charge.refunded", charge)
    if back:
        batch.change(transfer)
        batch.announce("transfer.reversed", transfer)
    if fee_back:
        batch.change(fee)
        batch.announce("application_fee.refunded", fee)
    return views.document(batch, refund)


def asked(given, name, number):
    """The object of which a refund is to take its part; None where it isn't asked for."""
    if not given.get(name, False):
        return None
    if number is None:
        raise Refusal("invalid", name)
    return number


def part(whole, left_of_it, amount, left, captured):
    """What a refund takes of a whole: all that is left of it where it leaves nothing of the charge, else its part, if so much is left."""
    return left_of_it if amount == left else min(money.part(whole, amount, captured), left_of_it)
