#!/bin/sh
# A checkout with payhost: a card that is declined, another one for which the customer has to authenticate, and a
# capture of less than was authorised, over standard input and output.
#
#   examples/checkout.sh            prints the replies
#   examples/checkout.sh requests   prints the requests
set -eu
cd "$(dirname "$0")/.."
. examples/request.sh

requests() {
    # A payment intent of 20.00 usd, to be captured later, confirmed at once with a card that is declined: 402
    # card_declined, with the payment intent inside. It waits for another payment method.
    request POST /v1/payment_intents 'amount=2000&currency=usd&capture_method=manual&payment_method=pm_card_chargeDeclined&confirm=true'
    # Another card, whose bank wants the customer: 200, requires_action.
    request POST /v1/payment_intents/pi_0000000000000002/confirm 'payment_method=pm_card_authenticationRequired'
    # The customer does what the bank wants: 200, requires_capture.
    request POST /_host/payment_intents/pi_0000000000000002/authenticate 'outcome=succeeded'
    # An order number, which may be set in every status.
    request POST /v1/payment_intents/pi_0000000000000002 'metadata[order]=7'
    # The goods that are there are sent, and 15.00 usd are captured: 200, succeeded.
    request POST /v1/payment_intents/pi_0000000000000002/capture 'amount_to_capture=1500'
    # What is captured can't be canceled: 400, payment_intent_unexpected_state.
    request POST /v1/payment_intents/pi_0000000000000002/cancel ''
    # The payment intent as it is now.
    request GET /v1/payment_intents/pi_0000000000000002 ''
}

if [ "${1:-}" = requests ]; then
    requests
else
    requests | "$PAYHOST" stdio
fi
