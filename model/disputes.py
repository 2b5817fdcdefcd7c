"""Disputes: a charge paid by pm_card_createDispute is disputed in the moment of its capture."""

import money
import views
from errors import Refusal

CLOSED = ("won", "lost")


def open_due(batch, charge):
    """Opens the dispute of a charge that was just captured, where its payment method asks for one."""
    if batch.item(charge)["payment_method"] != "pm_card_createDispute":
        return
    account = batch.account_of(charge)
    dispute = batch.add("dispute", {"status": "needs_response", "charge": charge, "evidence": None}, account)
    move(batch, dispute, -money.captured(batch.rows, charge), money.DISPUTE_FEE)
    batch.change(charge, dispute=dispute)
    batch.announce("charge.dispute.created", dispute)


def move(batch, dispute, amount, fee):
    """What a dispute takes or gives back, at once."""
    charge = batch.item(dispute)["charge"]
    batch.add("txn", {
        "type": "adjustment",
        "amount": amount,
        "currency": batch.item(charge)["currency"],
        "fee": fee,
        "available_on": batch.time,
        "source": dispute,
    }, batch.account_of(dispute))


def open_one(batch, identity):
    """The dispute that a path names, where it isn't closed."""
    dispute = batch.owned(identity, "dispute")
    if batch.item(dispute)["status"] in CLOSED:
        raise Refusal("dispute_closed")
    return dispute


def send_evidence(batch, identity, given):
    dispute = open_one(batch, identity)
    evidence = given["evidence[uncategorized_text]"]
    status = {"winning_evidence": "won", "losing_evidence": "lost"}.get(evidence, "under_review")
    batch.change(dispute, status=status, evidence=evidence)
    if status == "won":
        move(batch, dispute, money.captured(batch.rows, batch.item(dispute)["charge"]), 0)
    if status in CLOSED:
        batch.announce("charge.dispute.closed", dispute)
    return views.document(batch, dispute)


def close(batch, identity, _given):
    dispute = open_one(batch, identity)
    batch.change(dispute, status="lost")
    batch.announce("charge.dispute.closed", dispute)
    return views.document(batch, dispute)
