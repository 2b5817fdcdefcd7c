"""The documents of objects as clients see them, and their JSON text."""

import json

import connect
import errors
import money
import rows as book_rows
import transfers


def text(document):
    """Compact JSON, the keys in byte order. Only quotation marks, backslashes and control bytes are escaped."""
    return json.dumps(document, ensure_ascii=False, separators=(",", ":"), sort_keys=True)


def document(batch, number):
    """The document of an object as it is now."""
    row = book_rows.latest(batch.rows, number)
    return DOCUMENTS[row.kind](batch.rows, number, row.item, batch.time)


def printed(rows, number):
    """The id of an object, or None."""
    return None if number is None else book_rows.printed_id(rows[number - 1].kind, number)


def common(rows, number):
    return {"id": printed(rows, number), "created": book_rows.created(rows, number)}


def retrieve(*kinds):
    """The call that shows the account's object of a kind."""
    def call(batch, identity, _given):
        return document(batch, batch.owned(identity, *kinds))
    return call


def intent(rows, number, item, _time):
    return {
        **common(rows, number),
        "amount": item["amount"],
        "amount_capturable": money.capturable(rows, number),
        "amount_received": money.received(rows, number),
        "application_fee_amount": item["fee"],
        "cancellation_reason": item["reason"],
        "capture_method": item["capture_method"],
        "client_secret": printed(rows, number) + "_secret_payhost",
        "currency": item["currency"],
        "description": item["description"],
        "last_payment_error": errors.error_object(item["error"]) if item["error"] else None,
        "latest_charge": printed(rows, item["latest_charge"]),
        "livemode": False,
        "metadata": item["metadata"],
        "next_action": {"type": "payhost_authenticate"} if item["status"] == "requires_action" else None,
        "object": "payment_intent",
        "payment_method": item["payment_method"],
        "status": item["status"],
        "transfer_data": {"destination": printed(rows, item["destination"])} if item["destination"] else None,
        "transfer_group": item["transfer_group"],
    }


def charge(rows, number, item, _time):
    capture = money.capture_of(rows, number)
    captured = money.captured(rows, number)
    refunded = money.refunded(rows, number)
    return {
        **common(rows, number),
        "amount": item["amount"],
        "amount_captured": captured,
        "amount_refunded": refunded,
        "application_fee": printed(rows, connect.fee_of(rows, number)),
        "application_fee_amount": item["fee"],
        "balance_transaction": printed(rows, capture.object) if capture else None,
        "captured": capture is not None,
        "currency": item["currency"],
        "description": item["description"],
        "disputed": item["dispute"] is not None,
        "failure_code": "card_declined" if item["status"] == "failed" else None,
        "livemode": False,
        "metadata": item["metadata"],
        "object": "charge",
        "paid": item["status"] != "failed",
        "payment_intent": printed(rows, item["intent"]),
        "payment_method": item["payment_method"],
        "refunded": refunded == captured and captured > 0,
        "source_transfer": None,
        "status": item["status"],
        "transfer": printed(rows, connect.transfer_of(rows, number)),
        "transfer_group": item["transfer_group"],
    }


def payment(rows, number, item, time):
    """A payment is a charge that a transfer gave: it pays no PaymentIntent, and all of it is captured."""
    given = {"status": "succeeded", "intent": None, "payment_method": None, "description": None, "metadata": {},
             "transfer_group": None, "dispute": None, "fee": None, **item}
    return {**charge(rows, number, given, time), "source_transfer": printed(rows, item["transfer"]), "transfer": None,
            "application_fee": None}


def transfer(rows, number, item, _time):
    return {
        **common(rows, number),
        "amount": item["amount"],
        "amount_reversed": money.reversed_of(rows, number),
        "balance_transaction": printed(rows, txn_from(rows, number)),
        "currency": item["currency"],
        "description": item["description"],
        "destination": printed(rows, item["destination"]),
        "destination_payment": printed(rows, transfers.payment_of(rows, number)),
        "livemode": False,
        "metadata": item["metadata"],
        "object": "transfer",
        "reversed": money.reversed_of(rows, number) == item["amount"],
        "source_transaction": printed(rows, item["charge"]),
        "transfer_group": item["transfer_group"],
    }


def fee(rows, number, item, _time):
    return {
        **common(rows, number),
        "account": printed(rows, item["account"]),
        "amount": item["amount"],
        "amount_refunded": money.given_back(rows, number),
        "balance_transaction": printed(rows, txn_from(rows, number)),
        "charge": printed(rows, item["charge"]),
        "currency": item["currency"],
        "livemode": False,
        "object": "application_fee",
        "refunded": money.given_back(rows, number) == item["amount"],
    }


def reversal(rows, number, item, _time):
    return {
        **common(rows, number),
        "amount": item["amount"],
        "balance_transaction": printed(rows, txn_from(rows, number)),
        "currency": item["currency"],
        "metadata": item["metadata"],
        "object": "transfer_reversal",
        "source_refund": printed(rows, item["refund"]),
        "transfer": printed(rows, item["transfer"]),
    }


def fee_refund(rows, number, item, _time):
    return {
        **common(rows, number),
        "amount": item["amount"],
        "balance_transaction": printed(rows, txn_from(rows, number)),
        "currency": item["currency"],
        "fee": printed(rows, item["fee"]),
        "metadata": item["metadata"],
        "object": "fee_refund",
    }


def account(rows, number, item, _time):
    return {
        **common(rows, number),
        "charges_enabled": True,
        "email": item["email"],
        "metadata": item["metadata"],
        "object": "account",
        "payouts_enabled": True,
        "type": item["type"],
    }


def txn_from(rows, source):
    """The first transaction that comes from an object."""
    return next(row.object for row in money.txns(rows) if row.item["source"] == source)


def refund(rows, number, item, _time):
    of = book_rows.latest(rows, item["charge"]).item
    return {
        **common(rows, number),
        "amount": item["amount"],
        "balance_transaction": printed(rows, txn_from(rows, number)),
        "charge": printed(rows, item["charge"]),
        "currency": of["currency"],
        "metadata": item["metadata"],
        "object": "refund",
        "payment_intent": printed(rows, of["intent"]),
        "reason": item["reason"],
        "status": "succeeded",
        "transfer_reversal": printed(rows, reversal_by(rows, number)),
    }


def reversal_by(rows, refund):
    """The reversal that a refund made, or None."""
    return next((row.object for row in rows if row.kind == "reversal" and row.item["refund"] == refund), None)


def dispute(rows, number, item, _time):
    of = book_rows.latest(rows, item["charge"]).item
    return {
        **common(rows, number),
        "amount": money.captured(rows, item["charge"]),
        "charge": printed(rows, item["charge"]),
        "currency": of["currency"],
        "evidence": {"uncategorized_text": item["evidence"]},
        "livemode": False,
        "object": "dispute",
        "payment_intent": printed(rows, of["intent"]),
        "reason": "fraudulent",
        "status": item["status"],
    }


def txn(rows, number, item, time):
    return {
        **common(rows, number),
        "amount": item["amount"],
        "available_on": item["available_on"],
        "currency": item["currency"],
        "fee": item["fee"],
        "net": money.net(item),
        "object": "balance_transaction",
        "source": printed(rows, item["source"]),
        "status": "available" if item["available_on"] <= time else "pending",
        "type": item["type"],
    }


DOCUMENTS = {"account": account, "intent": intent, "charge": charge, "payment": payment, "refund": refund, "dispute": dispute,
             "transfer": transfer, "reversal": reversal, "fee": fee, "fee_refund": fee_refund, "txn": txn}


def balance(batch, _identity, _given):
    """The call that shows the balance of the account."""
    sums = [(currency, money.balance(batch.rows, batch.account, currency, batch.time))
            for currency in money.currencies_of(batch.rows, batch.account)]
    return {
        "available": [{"amount": available, "currency": currency} for currency, (available, _) in sums],
        "livemode": False,
        "object": "balance",
        "pending": [{"amount": pending, "currency": currency} for currency, (_, pending) in sums],
    }


def clock(time):
    return {"now": time, "object": "payhost.clock"}
