#!/bin/sh
# Money that goes back with payhost: refunds of a part and of the rest, and a dispute that is won, over standard input
# and output.
#
#   examples/refunds.sh            prints the replies
#   examples/refunds.sh requests   prints the requests
set -eu
cd "$(dirname "$0")/.."
. examples/request.sh

requests() {
    # A payment of 20.00 usd: its charge is ch_0000000000000006.
    request POST /v1/payment_intents 'amount=2000&currency=usd&payment_method=pm_card_visa&confirm=true'
    # 5.00 go back: re_0000000000000011. The fee of the payment is kept.
    request POST /v1/refunds 'charge=ch_0000000000000006&amount=500&reason=requested_by_customer'
    # Without an amount the rest goes back: re_0000000000000015, of 1500.
    request POST /v1/refunds 'payment_intent=pi_0000000000000002'
    # There is nothing left: 400, charge_already_refunded.
    request POST /v1/refunds 'charge=ch_0000000000000006'
    # Available is 0, pending -88: the fee.
    request GET /v1/balance ''
    # A payment whose customer goes to the bank at once: the charge is ch_0000000000000023.
    request POST /v1/payment_intents 'amount=2000&currency=usd&payment_method=pm_card_createDispute&confirm=true'
    # The dispute dp_0000000000000026 has taken the amount, and a fee of 15.00: available is -3500, pending 1824.
    request GET /v1/disputes/dp_0000000000000026 ''
    request GET /v1/balance ''
    # While it isn't won, nothing can be refunded: 400, charge_disputed.
    request POST /v1/refunds 'charge=ch_0000000000000023'
    # Evidence that wins gives the amount back, but not the fee; then a refund is possible again: re_0000000000000035.
    request POST /v1/disputes/dp_0000000000000026 'evidence[uncategorized_text]=winning_evidence'
    request POST /v1/refunds 'charge=ch_0000000000000023&amount=500'
    # Available is -1500, pending 1324.
    request GET /v1/balance ''
    # A dispute that is closed is closed: 400.
    request POST /v1/disputes/dp_0000000000000026/close ''
}

if [ "${1:-}" = requests ]; then
    requests
else
    requests | "$PAYHOST" stdio
fi
