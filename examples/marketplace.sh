#!/bin/sh
# A marketplace with payhost over HTTP, by curl: a platform takes a payment for one seller and keeps a fee, another seller takes
# one by itself, of which the platform has its fee; then ada's customer gets half back, which takes ada's part back and gives the fee's
# back, and ben gets a transfer, of which a part is reversed. After each step every balance is the one that was worked out beforehand.
# Wants curl; where there is none it says so and ends with 0.
#
#   examples/marketplace.sh
set -eu
cd "$(dirname "$0")/.."
if ! command -v curl >/dev/null 2>&1; then
    echo "examples/marketplace.sh: there is no curl here, so nothing was sent (Debian: apt-get install curl)" >&2
    exit 0
fi
. examples/server.sh
start_server --workers 1

# The accounts, by their ids: the platform's own, which is there from the beginning, and the two sellers.
platform=acct_0000000000000001
ada=acct_0000000000000002
ben=acct_0000000000000003

# One call of an account. Ends where the status isn't the expected one, or where the reply hasn't this text.
#
#   call STATUS TEXT ACCOUNT TARGET WORDS ..
call() {
    status=$1
    text=$2
    account=$3
    target=$4
    shift 4
    printf '%s: %s\n' "$account" "$target $*"
    reply=$(curl -sS -u sk_test_payhost: -H "Stripe-Account: $account" -w ' %{http_code}' "http://127.0.0.1:$PORT$target" "$@")
    printf '%.400s\n\n' "${reply% *}"
    if [ "${reply##* }" != "$status" ]; then
        echo "examples/marketplace.sh: the status is ${reply##* }, and not $status" >&2
        exit 1
    fi
    case $reply in
        *"$text"*) ;;
        *)
            echo "examples/marketplace.sh: the reply hasn't $text" >&2
            exit 1
            ;;
    esac
}

# What an account has, in cents of usd: what is available, and what is pending.
#
#   has ACCOUNT AVAILABLE PENDING
has() {
    call 200 "{\"available\":[{\"amount\":$2,\"currency\":\"usd\"}],\"livemode\":false,\"object\":\"balance\",\"pending\":[{\"amount\":$3,\"currency\":\"usd\"}]}" "$1" /v1/balance
}

call 200 "\"id\":\"$ada\"" $platform /v1/accounts -d type=express -d email=ada@example.com
call 200 "\"id\":\"$ben\"" $platform /v1/accounts -d type=express -d email=ben@example.com

# Before: nobody has anything.
has $platform 0 0
has $ada 0 0
has $ben 0 0

# The platform takes 100.00 for ada and keeps 10.00: the payment intent is 4 and its attempt 5; the charge is 8, the transfer of all
# of it 10, what ada has of it, a payment, 12, and the application fee 14.
call 200 '"status":"succeeded"' $platform /v1/payment_intents -d amount=10000 -d currency=usd -d payment_method=pm_card_visa \
    -d confirm=true -d "transfer_data[destination]=$ada" -d application_fee_amount=1000
call 200 '"application_fee":"fee_0000000000000014"' $platform /v1/charges/ch_0000000000000008
call 200 '"destination_payment":"py_0000000000000012"' $platform /v1/transfers/tr_0000000000000010
call 200 '"source_transfer":"tr_0000000000000010"' $ada /v1/charges/py_0000000000000012
# Of 100.00 the processor keeps 3.20, which the platform pays: 10000 - 320 - 10000 + 1000. Ada has 10000 - 1000.
has $platform 0 680
has $ada 0 9000

# Ben takes 40.00 by himself, of which the platform has 4.00: the charge is 25, the application fee 27. The charge is ben's alone.
call 200 '"status":"succeeded"' $ben /v1/payment_intents -d amount=4000 -d currency=usd -d payment_method=pm_card_visa \
    -d confirm=true -d application_fee_amount=400
call 200 '"application_fee":"fee_0000000000000027"' $ben /v1/charges/ch_0000000000000025
call 404 '"param":"id"' $platform /v1/charges/ch_0000000000000025
call 200 "\"account\":\"$ben\"" $platform /v1/application_fees/fee_0000000000000027
# Of 40.00 the processor keeps 1.46, which ben pays: 4000 - (146 + 400). The platform has 680 + 400.
has $platform 0 1080
has $ada 0 9000
has $ben 0 3454

# Two days later all of it is available: 1080 + 9000 + 3454 = 13534, which is 14000 less the processor's 320 and 146.
call 200 '"now":1700172800' $platform /_host/clock -d now=1700172800
has $platform 1080 0
has $ada 9000 0
has $ben 3454 0

# Ada's customer gets half of it back: 50.00, with half of ada's part and half of the fee. Ada gives 50.00 back and gets 5.00 of the fee:
# 9000 - 5000 + 500; the platform 1080 - 5000 + 5000 - 500.
call 200 '"transfer_reversal":"trr_' $platform /v1/refunds -d charge=ch_0000000000000008 -d amount=5000 \
    -d reverse_transfer=true -d refund_application_fee=true
call 200 '"amount_reversed":5000' $platform /v1/transfers/tr_0000000000000010
call 200 '"amount_refunded":500' $platform /v1/application_fees/fee_0000000000000014
has $platform 580 0
has $ada 4500 0
has $ben 3454 0

# The rest, with all that is left of both. The processor's 3.20 stay with the platform: 580 - 5000 + 5000 - 500.
call 200 '"amount":5000' $platform /v1/refunds -d charge=ch_0000000000000008 -d reverse_transfer=true -d refund_application_fee=true
call 200 '"reversed":true' $platform /v1/transfers/tr_0000000000000010
call 200 '"refunded":true' $platform /v1/application_fees/fee_0000000000000014
call 400 charge_already_refunded $platform /v1/refunds -d charge=ch_0000000000000008
has $platform 80 0
has $ada 0 0

# The platform transfers 0.80 to ben, which is all that it has, and takes 0.30 back.
call 400 balance_insufficient $platform /v1/transfers -d amount=81 -d currency=usd -d destination=$ben
transfer=$(curl -sS -u sk_test_payhost: "http://127.0.0.1:$PORT/v1/transfers" -d amount=80 -d currency=usd -d destination=$ben \
    | sed 's/.*"id":"\(tr_[0-9]*\)".*/\1/')
has $platform 0 0
has $ben 3534 0
call 200 '"object":"transfer_reversal"' $platform "/v1/transfers/$transfer/reversals" -d amount=30
call 400 '"param":"amount"' $platform "/v1/transfers/$transfer/reversals" -d amount=51
has $platform 30 0
has $ben 3504 0
