#!/bin/sh
# Accounting with payhost: what a payment leaves on the balance, its fee, and when it becomes available, over standard
# input and output.
#
#   examples/accounting.sh            prints the replies
#   examples/accounting.sh requests   prints the requests
set -eu
cd "$(dirname "$0")/.."
. examples/request.sh

requests() {
    # A payment of 20.00 usd: 200, succeeded; its charge is ch_0000000000000006.
    request POST /v1/payment_intents 'amount=2000&currency=usd&payment_method=pm_card_visa&confirm=true'
    # The charge names its balance transaction, txn_0000000000000007.
    request GET /v1/charges/ch_0000000000000006 ''
    # Of 2000 the fee is 2.9% and 30: 88. The net amount, 1912, is pending for two days.
    request GET /v1/balance_transactions/txn_0000000000000007 ''
    request GET /v1/balance ''
    # One second before two days have passed it is still pending, at that second it is available.
    request POST /_host/clock 'now=1700172799'
    request GET /v1/balance ''
    request POST /_host/clock 'now=1700172800'
    request GET /v1/balance ''
    # The clock doesn't go back: 400, clock_backwards.
    request POST /_host/clock 'now=1700172799'
    # A payment of 20.00 usd to be captured later, and 15.00 captured: the fee is that of 1500, 74.
    request POST /v1/payment_intents 'amount=2000&currency=usd&payment_method=pm_card_visa&capture_method=manual&confirm=true'
    request POST /v1/payment_intents/pi_0000000000000011/capture 'amount_to_capture=1500'
    # 1,000 yen that are available at once: the fee is 3.6% and nothing fixed, 36.
    request POST /v1/payment_intents 'amount=1000&currency=jpy&payment_method=pm_card_bypassPending&confirm=true'
    # Another currency is another balance: 964 jpy are available, and of usd 1912 are available and 1426 pending.
    request GET /v1/balance ''
}

if [ "${1:-}" = requests ]; then
    requests
else
    requests | "$PAYHOST" stdio
fi
