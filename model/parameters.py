"""The calls and their parameters: routes, kinds, and the refusals that need nothing but the request, in order."""

import re
from collections import namedtuple

import acquirer
import forms
import money
import rows as book_rows
from errors import Refusal

CLOCK_LIMIT = 253402300799

# ---- Kinds: each takes what stands at a parameter (a text, or a map of texts below it) and answers its value.


def is_text(node):
    return isinstance(node, str)


def read_number(text):
    """Decimal digits that give less than 2^64, or None."""
    if not re.fullmatch(r"[0-9]+", text):
        return None
    digits = text.lstrip("0") or "0"
    return int(digits) if len(digits) <= 20 and int(digits) < 2**64 else None


def number(name, node):
    value = read_number(node) if is_text(node) else None
    if value is None:
        raise Refusal("no_integer", name)
    return value


def amount(name, node):
    value = number(name, node)
    if value > money.MOST:
        raise Refusal("too_large", name)
    return value


def ascii_lower(text):
    return text.lower() if text.isascii() else text


def any_case(*words):
    """One of the words, in any case."""
    def kind(name, node):
        if not is_text(node) or ascii_lower(node) not in words:
            raise Refusal("invalid", name)
        return ascii_lower(node)
    return kind


def words(*choices):
    """One of the words, by case."""
    def kind(name, node):
        if not is_text(node) or node not in choices:
            raise Refusal("invalid", name)
        return node
    return kind


currency = any_case(*money.CURRENCIES)


def truth(name, node):
    return any_case("true", "false")(name, node) == "true"


def text(most):
    """A text of at most so many characters."""
    def kind(name, node):
        if not is_text(node) or len(node) > most:
            raise Refusal("invalid", name)
        return node
    return kind


def identity(name, node):
    """A text; what it names is looked up when the call is carried out."""
    if not is_text(node):
        raise Refusal("invalid", name)
    return node


def payment_method(name, node):
    if not is_text(node):
        raise Refusal("invalid", name)
    if acquirer.method_of(node) is None:
        raise Refusal("no_method", name)
    return node


CLEAR = "clear"


def metadata(name, node):
    """A map of at most 50 texts, or CLEAR for the empty text."""
    if node == "":
        return CLEAR
    if is_text(node) or len(node) > 50:
        raise Refusal("invalid", name)
    pairs = {}
    for path, value in node.items():
        key = re.fullmatch(r"\[([^\[\]]{1,40})\]", path)
        if key is None or len(value) > 500:
            raise Refusal("invalid", name)
        pairs[key[1]] = value
    return pairs


def first_metadata(given):
    """The metadata of a new object, in byte order of the names: an empty text is a text."""
    pairs = given.get("metadata", CLEAR)
    return {} if pairs == CLEAR else dict(sorted(pairs.items()))


def merged_metadata(old, given):
    """The metadata after an update: an empty text takes its key away."""
    if "metadata" not in given:
        return old
    if given["metadata"] == CLEAR:
        return {}
    merged = {**old, **given["metadata"]}
    kept = {key: value for key, value in merged.items() if given["metadata"].get(key) != ""}
    return dict(sorted(kept.items()))


# ---- Checks that stand behind all parameters of a call.


def check_create(given, account):
    if given["amount"] < money.minimum(given["currency"]):
        raise Refusal("too_small")
    if given.get("confirm") and "payment_method" not in given:
        raise Refusal("missing", "payment_method")
    fee, of_platform = given.get("application_fee_amount"), account == book_rows.PLATFORM
    to = given.get("transfer_data[destination]")
    if fee is not None and fee > given["amount"]:
        raise Refusal("invalid", "application_fee_amount")
    if fee is not None and of_platform and to is None:
        raise Refusal("invalid", "application_fee_amount")
    if to is not None and not of_platform:
        raise Refusal("invalid", "transfer_data[destination]")


def check_refund(given, _account):
    if ("charge" in given) == ("payment_intent" in given):
        raise Refusal("missing", "charge")
    check_amount(given, _account)


def check_amount(given, _account):
    if given.get("amount") == 0:
        raise Refusal("invalid", "amount")


def check_clock(given, _account):
    if given["now"] > CLOCK_LIMIT:
        raise Refusal("no_integer", "now")


# ---- The table of calls.

Parameter = namedtuple("Parameter", "name kind required")


def must(name, kind):
    return Parameter(name, kind, True)


def may(name, kind):
    return Parameter(name, kind, False)


REASONS_FOR_REFUND = ("duplicate", "fraudulent", "requested_by_customer")

# name: method and path, parameters in the order in which they are checked, ignored names, further checks
CALLS = {
    "create_intent": ("POST /v1/payment_intents", [
        must("amount", amount),
        must("currency", currency),
        may("payment_method", payment_method),
        may("confirm", truth),
        may("capture_method", words("automatic", "automatic_async", "manual")),
        may("description", text(1000)),
        may("metadata", metadata),
        may("application_fee_amount", amount),
        may("transfer_data[destination]", identity),
        may("transfer_group", text(255)),
    ], ["automatic_payment_methods", "payment_method_types", "return_url", "receipt_email", "statement_descriptor",
        "statement_descriptor_suffix", "off_session", "use_stripe_sdk"], check_create),
    "get_intent": ("GET /v1/payment_intents/{id}", [], [], None),
    "update_intent": ("POST /v1/payment_intents/{id}", [
        may("amount", amount),
        may("currency", currency),
        may("payment_method", payment_method),
        may("description", text(1000)),
        may("metadata", metadata),
        may("application_fee_amount", amount),
        may("transfer_group", text(255)),
    ], [], None),
    "confirm_intent": ("POST /v1/payment_intents/{id}/confirm", [
        may("payment_method", payment_method),
    ], ["return_url", "off_session", "use_stripe_sdk"], None),
    "capture_intent": ("POST /v1/payment_intents/{id}/capture", [
        may("amount_to_capture", amount),
        may("application_fee_amount", amount),
    ], [], None),
    "cancel_intent": ("POST /v1/payment_intents/{id}/cancel", [
        may("cancellation_reason", words("duplicate", "fraudulent", "requested_by_customer", "abandoned")),
    ], [], None),
    "get_charge": ("GET /v1/charges/{id}", [], [], None),
    "create_refund": ("POST /v1/refunds", [
        may("charge", identity),
        may("payment_intent", identity),
        may("amount", amount),
        may("reason", words(*REASONS_FOR_REFUND)),
        may("metadata", metadata),
        may("reverse_transfer", truth),
        may("refund_application_fee", truth),
    ], [], check_refund),
    "get_refund": ("GET /v1/refunds/{id}", [], [], None),
    "get_dispute": ("GET /v1/disputes/{id}", [], [], None),
    "send_evidence": ("POST /v1/disputes/{id}", [
        must("evidence[uncategorized_text]", text(20000)),
    ], ["submit"], None),
    "close_dispute": ("POST /v1/disputes/{id}/close", [], [], None),
    "create_account": ("POST /v1/accounts", [
        may("type", words("standard", "express", "custom")),
        may("email", text(255)),
        may("metadata", metadata),
    ], ["country", "capabilities", "business_type", "business_profile", "tos_acceptance", "controller", "settings"], None),
    "get_account": ("GET /v1/accounts/{id}", [], [], None),
    "create_transfer": ("POST /v1/transfers", [
        must("amount", amount),
        must("currency", currency),
        must("destination", identity),
        may("source_transaction", identity),
        may("description", text(1000)),
        may("metadata", metadata),
        may("transfer_group", text(255)),
    ], [], check_amount),
    "get_transfer": ("GET /v1/transfers/{id}", [], [], None),
    "reverse_transfer": ("POST /v1/transfers/{id}/reversals", [
        may("amount", amount),
        may("metadata", metadata),
    ], [], check_amount),
    "get_fee": ("GET /v1/application_fees/{id}", [], [], None),
    "refund_fee": ("POST /v1/application_fees/{id}/refunds", [
        may("amount", amount),
        may("metadata", metadata),
    ], [], check_amount),
    "get_balance": ("GET /v1/balance", [], [], None),
    "get_txn": ("GET /v1/balance_transactions/{id}", [], [], None),
    "authenticate": ("POST /_host/payment_intents/{id}/authenticate", [
        must("outcome", words("succeeded", "failed")),
    ], [], None),
    "set_clock": ("POST /_host/clock", [must("now", number)], [], check_clock),
}

# Accepted in every call, with anything below it, and without effect.
IGNORED_EVERYWHERE = ["expand"]


def route(method, path):
    """The call of a method and a path, and the segment in the place of {id}. Both are read by case."""
    segments = path.split(b"/")
    for name, (target, _, _, _) in CALLS.items():
        own_method, own_path = target.split(" ")
        own_segments = own_path.encode().split(b"/")
        if own_method.encode() == method and len(own_segments) == len(segments):
            matches = [own == b"{id}" and segment != b"" or own == segment
                       for own, segment in zip(own_segments, segments)]
            if all(matches):
                ids = [segment for own, segment in zip(own_segments, segments) if own == b"{id}"]
                return name, ids[0].decode("latin-1") if ids else None
    raise Refusal("no_url")


def read_call(request, account):
    """The call that a request of an account makes: its name, the id of its path, and the values of the parameters named."""
    name, identity_text = route(request.method, request.path)
    form = forms.read(request.query, request.body)
    _, row, ignored, further = CALLS[name]
    known = [parameter.name for parameter in row] + ignored + IGNORED_EVERYWHERE
    unknown = [path for path in form if not any(path == own or path.startswith(own + "[") for own in known)]
    if unknown:
        raise Refusal("unknown", min(unknown))
    given = {}
    for parameter in row:
        node = forms.value(form, parameter.name)
        if node is not None:
            given[parameter.name] = parameter.kind(parameter.name, node)
        elif parameter.required:
            raise Refusal("missing", parameter.name)
    if further:
        further(given, account)
    return name, identity_text, given
