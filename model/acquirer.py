"""Test payment methods, the simulated acquirer, a scripted one, and how long an answer is waited for."""

import re

# text of a payment method: what it does
METHODS = {
    "pm_card_visa": "visa",
    "pm_card_chargeDeclined": "declined",
    "pm_card_visa_chargeDeclined": "declined",
    "pm_card_chargeDeclinedInsufficientFunds": "no_funds",
    "pm_card_visa_chargeDeclinedInsufficientFunds": "no_funds",
    "pm_card_authenticationRequired": "challenge",
    "pm_card_createDispute": "dispute",
    "pm_card_bypassPending": "bypass",
    "pm_payhost_lost": "lost",
}

# What the simulated acquirer rules. `authenticated` is the method of an attempt behind an authentication.
RULINGS = {
    "visa": "approve",
    "declined": "decline",
    "no_funds": "funds",
    "challenge": "challenge",
    "dispute": "approve",
    "bypass": "approve",
    "authenticated": "approve",
}

REMEMBERED = 32


def method_of(text):
    """The method that a text names, `slow_N` among them, or None."""
    slow = re.fullmatch(r"pm_payhost_slow_([1-9][0-9]{0,3})", text)
    if slow and int(slow[1]) <= 1000:
        return f"slow_{slow[1]}"
    return METHODS.get(text)


class Simulated:
    """Rules by the method alone. It counts the asks of the references that were most recently first asked."""

    def __init__(self):
        self.asks = {}

    def ask(self, order):
        before = self.asks.pop(order["reference"], None)
        if before is None:
            while len(self.asks) >= REMEMBERED:
                del self.asks[next(iter(self.asks))]
            before = 0
        self.asks[order["reference"]] = before + 1
        if order["method"] == "lost":
            return "fail"
        if order["method"].startswith("slow_"):
            return "wait" if before < int(order["method"][len("slow_") :]) else "approve"
        return RULINGS[order["method"]]


class Scripted:
    """Gives one word of its script an ask, and waits past its end."""

    def __init__(self, script):
        self.script = list(script)

    def ask(self, _order):
        return self.script.pop(0) if self.script else "wait"


def ruling(acquirer, order, patience):
    """How the asks of an attempt end: a ruling, or `failed` or `pending`. One ask more than the patience grants."""
    for _ in range(patience + 1):
        answer = acquirer.ask(order)
        if answer == "fail":
            return "failed"
        if answer != "wait":
            return answer
    return "pending"
