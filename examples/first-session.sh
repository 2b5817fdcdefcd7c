#!/bin/sh
# A first session with payhost: two payment intents, a refusal, and a retrieve, over standard input and output.
#
#   examples/first-session.sh            prints the replies
#   examples/first-session.sh requests   prints the requests
set -eu
cd "$(dirname "$0")/.."

. examples/request.sh

requests() {
    # A payment intent of 20.00 usd, and one with an order number in its metadata.
    request POST /v1/payment_intents 'amount=2000&currency=usd'
    request POST /v1/payment_intents 'amount=1099&currency=eur&capture_method=manual&metadata[order]=7'
    # Below the least amount of usd: 400, amount_too_small.
    request POST /v1/payment_intents 'amount=49&currency=usd'
    # A parameter that there isn't: 400, parameter_unknown, and which one.
    request POST /v1/payment_intents 'amount=2000&currency=usd&colour=red'
    # The second payment intent again.
    request GET /v1/payment_intents/pi_0000000000000004 ''
    # One that isn't there: 404, resource_missing.
    request GET /v1/payment_intents/pi_0000000000000009 ''
}

if [ "${1:-}" = requests ]; then
    requests
else
    requests | "$PAYHOST" stdio
fi
