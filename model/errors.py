"""The errors of the profile: one line of the table for each."""

from collections import namedtuple

# What a call is answered: the document is printed as JSON, `retry` says that the same request may be sent again,
# `replayed` that the reply was saved by an earlier request with the same idempotency key.
Reply = namedtuple("Reply", "status document retry replayed", defaults=(False, False))

INVALID = "invalid_request_error"

# name: status, type, code, param, message, whether a client should send the request again
TABLE = {
    # the request as a whole
    "wrong_key": (401, INVALID, None, None, "Invalid API Key provided.", False),
    "no_account": (404, INVALID, "resource_missing", "Stripe-Account", "No such account.", False),
    "no_url": (404, INVALID, None, None, "Unrecognized request URL.", False),
    "bad_name": (400, INVALID, None, None, "Invalid parameter name at place {}.", False),
    "clash": (400, INVALID, None, None, "Repeated parameter at place {}.", False),
    "too_deep": (400, INVALID, None, None, "Parameter nested too deeply at place {}.", False),
    # parameters
    "unknown": (400, INVALID, "parameter_unknown", None, "Received unknown parameter.", False),
    "missing": (400, INVALID, "parameter_missing", None, "Missing required parameter.", False),
    "no_integer": (400, INVALID, "parameter_invalid_integer", None, "Invalid integer.", False),
    "too_small": (400, INVALID, "amount_too_small", "amount", "Amount is below the minimum.", False),
    "too_large": (400, INVALID, "amount_too_large", None, "Amount is above the maximum.", False),
    "invalid": (400, INVALID, None, None, "Invalid value.", False),
    "no_method": (400, INVALID, "resource_missing", None, "No such payment method.", False),
    # the idempotency key
    "key_too_long": (400, "idempotency_error", None, None, "Idempotency key is too long.", False),
    "key_not_text": (400, "idempotency_error", None, None, "Idempotency key is not text.", False),
    "key_differs": (400, "idempotency_error", None, None, "Idempotency key was used with other parameters.", False),
    "key_in_use": (409, "idempotency_error", "idempotency_key_in_use", None,
                   "A request with this idempotency key is running.", True),
    # what stands
    "no_object": (404, INVALID, "resource_missing", "id", "No such object.", False),
    "wrong_status": (400, INVALID, "payment_intent_unexpected_state", None,
                     "The status of this PaymentIntent does not allow this.", False),
    "not_captured": (400, INVALID, None, "charge", "The charge has not been captured.", False),
    "dispute_closed": (400, INVALID, None, "id", "The dispute is closed.", False),
    "refunded": (400, INVALID, "charge_already_refunded", None, "The charge has been refunded.", False),
    "disputed": (400, INVALID, "charge_disputed", None, "The charge is disputed.", False),
    "platform_only": (400, INVALID, None, "Stripe-Account", "Not possible on a connected account.", False),
    "too_little": (400, INVALID, "balance_insufficient", None, "Insufficient available funds.", False),
    "clock_backwards": (400, INVALID, "clock_backwards", "now", "The clock does not go back.", False),
    # the card and its acquirer
    "declined": (402, "card_error", "card_declined", None, "Your card was declined.", False),
    "no_funds": (402, "card_error", "card_declined", None, "Your card has insufficient funds.", False),
    "not_authenticated": (402, "card_error", "payment_intent_authentication_failure", None,
                          "The payment was not authenticated.", False),
    "acquirer_pending": (500, "api_error", "acquirer_pending", None, "The acquirer has not answered yet.", True),
    "acquirer_failed": (500, "api_error", "acquirer_failed", None, "The acquirer could not be reached.", True),
    # the host
    "no_memory": (503, "api_error", "no_memory", None, "Out of memory.", False),
    "history_full": (503, "api_error", "history_full", None, "The history is full.", False),
    "malformed": (400, INVALID, None, None, "Malformed request.", False),
    "body_too_large": (413, INVALID, None, None, "Body too large.", False),
    "head_too_large": (431, INVALID, None, None, "Head too large.", False),
    "not_implemented": (501, INVALID, None, None, "Not implemented.", False),
    "version": (505, INVALID, None, None, "HTTP version not supported.", False),
}

DECLINE_CODES = {"declined": "generic_decline", "no_funds": "insufficient_funds"}


class Refusal(Exception):
    """A call that is answered with an error."""

    def __init__(self, name, param=None, at=None, intent=None):
        super().__init__(name)
        self.name, self.param, self.at, self.intent = name, param, at, intent

    def reply(self):
        status, _, _, _, _, retry = TABLE[self.name]
        keys = error_object(self.name, self.param, self.at)
        if self.intent is not None:
            keys["payment_intent"] = self.intent
        return Reply(status, {"error": keys}, retry)


def error_object(name, param=None, at=None):
    """The object at `error`, each key left out where there is none."""
    _, sort, code, own_param, message, _ = TABLE[name]
    keys = {
        "code": code,
        "decline_code": DECLINE_CODES.get(name),
        "message": message.format(at),
        "param": param or own_param,
        "type": sort,
    }
    return {key: value for key, value in keys.items() if value is not None}
