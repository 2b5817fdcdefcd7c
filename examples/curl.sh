#!/bin/sh
# A checkout with payhost over HTTP, by curl: a card that is declined, another one, a refund of a part, and the balance. Wants
# curl; where there is none it says so and ends with 0.
#
#   examples/curl.sh
set -eu
cd "$(dirname "$0")/.."
if ! command -v curl >/dev/null 2>&1; then
    echo "examples/curl.sh: there is no curl here, so nothing was sent (Debian: apt-get install curl)" >&2
    exit 0
fi
. examples/server.sh
start_server --workers 1

# One call, as Stripe's own examples write it: the API key is the user's name, and a field is a -d. Ends where the status isn't the
# expected one.
#
#   call STATUS TARGET WORDS ..
call() {
    expected=$1
    target=$2
    shift 2
    printf '%s\n' "$target $*"
    reply=$(curl -sS -u sk_test_payhost: -w ' %{http_code}' "http://127.0.0.1:$PORT$target" "$@")
    printf '%.400s\n\n' "${reply% *}"
    if [ "${reply##* }" != "$expected" ]; then
        echo "examples/curl.sh: the status is ${reply##* }, and not $expected" >&2
        exit 1
    fi
}

# card_declined, with the payment intent inside.
call 402 /v1/payment_intents -d amount=2000 -d currency=usd -d payment_method=pm_card_chargeDeclined -d confirm=true
# Another card: succeeded.
call 200 /v1/payment_intents/pi_0000000000000002/confirm -d payment_method=pm_card_visa
# 5.00 usd go back.
call 200 /v1/refunds -d payment_intent=pi_0000000000000002 -d amount=500
# 20.00 less the fee of 0.88, less 5.00, are pending.
call 200 /v1/balance
