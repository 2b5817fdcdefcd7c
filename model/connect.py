"""Connect: connected accounts, and how what is captured is split between accounts."""

import money
import parameters
import rows as book_rows
import transfers
import views
from errors import Refusal


def account_named(rows, text):
    """The number of the account that a Stripe-Account header names; the platform's own where there is none."""
    number = book_rows.PLATFORM if text is None else book_rows.named(rows, text.decode("latin-1"), "account")
    if number is None:
        raise Refusal("no_account")
    return number


def create_account(batch, _identity, given):
    """A connected account. It belongs to the platform, and no event tells of it."""
    if batch.account != book_rows.PLATFORM:
        raise Refusal("platform_only")
    account = batch.add("account", {
        "type": given.get("type", "standard"),
        "email": given.get("email"),
        "metadata": parameters.first_metadata(given),
    })
    return views.document(batch, account)


def destination(batch, given):
    """The connected account that a create names as its destination, or None."""
    name = "transfer_data[destination]"
    if name not in given:
        return None
    number = book_rows.named(batch.rows, given[name], "account")
    if number in (None, book_rows.PLATFORM):
        raise Refusal("no_object", name)
    return number


def check_fee(batch, intent, given, amount):
    """What an update or a capture may name as application fee, where so much is to be captured."""
    fee = given.get("application_fee_amount", 0)
    takes_of_itself = batch.account == book_rows.PLATFORM and batch.item(intent)["destination"] is None
    if fee > amount or fee > 0 and takes_of_itself:
        raise Refusal("invalid", "application_fee_amount")


def split(batch, charge, amount):
    """What is captured of a charge goes to the balances: rows in the order of the page's tables."""
    item, account = batch.item(charge), batch.account_of(charge)
    currency = item["currency"]
    moment = batch.time + (0 if item["payment_method"] == "pm_card_bypassPending" else money.TWO_DAYS)
    processing = money.fee(currency, amount)
    taken = min(item["fee"] or 0, amount)

    def txn(owner, sort, given, kept, source):
        batch.add("txn", {"type": sort, "amount": given, "currency": currency, "fee": kept, "available_on": moment,
                          "source": source}, owner)

    def take(payer):
        if taken:
            fee = batch.add("fee", {"account": payer, "charge": charge, "amount": taken, "currency": currency,
                                    "available_on": moment}, book_rows.PLATFORM)
            txn(book_rows.PLATFORM, "application_fee", taken, 0, fee)

    if item["destination"] is not None:
        to = item["destination"]
        txn(account, "charge", amount, processing, charge)
        transfer = transfers.add_transfer(batch, amount, currency, to, charge, moment, {
            "description": None, "metadata": {}, "transfer_group": item["transfer_group"]})
        txn(to, "payment", amount, taken, transfers.payment_of(batch.rows, transfer))
        take(to)
    elif account != book_rows.PLATFORM:
        txn(account, "charge", amount, processing + taken, charge)
        take(account)
    else:
        txn(account, "charge", amount, processing, charge)


def tell_split(batch, charge):
    """The events of a split, which stand behind those of the charge and its PaymentIntent."""
    for row in list(batch.rows):
        if row.kind in ("transfer", "fee") and row.item["charge"] == charge:
            batch.announce({"transfer": "transfer.created", "fee": "application_fee.created"}[row.kind], row.object)


def transfer_of(rows, charge):
    """The transfer that a charge with a destination made, or None."""
    if book_rows.latest(rows, charge).item.get("destination") is None:
        return None
    return next((row.object for row in rows if row.kind == "transfer" and row.item["charge"] == charge), None)


def fee_of(rows, charge):
    """The application fee that was taken of a charge, or None."""
    return next((row.object for row in rows if row.kind == "fee" and row.item["charge"] == charge), None)
