#!/bin/sh
# A client that times out: the acquirer answers the fourth time that it is asked, payhost waits for three answers a
# request, and the client sends the same request with the same idempotency key until it is answered. There is one
# charge.
#
#   examples/retry.sh            prints the replies
#   examples/retry.sh requests   prints the requests
set -eu
cd "$(dirname "$0")/.."
. examples/request.sh

payment='amount=2000&currency=usd&payment_method=pm_payhost_slow_3&confirm=true'

requests() {
    # 500 acquirer_pending, with Stripe-Should-Retry: the acquirer was asked three times and hasn't ruled.
    request POST /v1/payment_intents "$payment" order-7
    # The same request again: the same attempt is asked for once more, under the same reference, and approved: 200.
    request POST /v1/payment_intents "$payment" order-7
    # Once more, as a client does that lost the reply: the same reply, with Idempotent-Replayed. Nothing is asked.
    request POST /v1/payment_intents "$payment" order-7
    # The key stands for that payment for a day: with another amount it is refused, 400 idempotency_error.
    request POST /v1/payment_intents 'amount=2500&currency=usd&payment_method=pm_card_visa&confirm=true' order-7
    # One charge of 20.00 usd, less its fee of 0.88: 1912 are pending.
    request GET /v1/balance ''
}

if [ "${1:-}" = requests ]; then
    requests
else
    requests | "$PAYHOST" stdio --patience 2
fi
