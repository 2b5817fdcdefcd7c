#!/bin/sh
# A recorded session, entered anew: a server writes down its history, and a replay of it gives the very replies that the
# clients saw, byte for byte, and the same summary.
#
#   examples/replay.sh            prints each reply's status and digest, and the summary
#
# It wants curl, and the port 12111 or $PORT. The program is $PAYHOST, or ./payhost, which builds it where that is needed.
set -eu
cd "$(dirname "$0")/.."

PAYHOST=${PAYHOST:-./payhost}
PORT=${PORT:-12111}
url=http://127.0.0.1:$PORT
kept=$(mktemp -d)
trap 'rm -rf "$kept"' EXIT

# Two workers that end by themselves behind three connections each.
"$PAYHOST" stdio </dev/null
"$PAYHOST" serve --port "$PORT" --workers 2 --connections 3 --history >"$kept/record" 2>"$kept/said" &
server=$!
while ! grep -q 'listening on' "$kept/said"; do
    if ! kill -0 "$server" 2>/dev/null; then
        cat "$kept/said" >&2
        exit 1
    fi
    sleep 0.1
done

# Each request over a connection of its own; what its client saw of the reply is its status and its body's SHA-256.
ask() {
    status=$(curl -s -o "$kept/body" -w '%{http_code}' -u sk_test_payhost: "$@")
    printf '%s %s\n' "$status" "$(sha256sum <"$kept/body" | cut -d' ' -f1)" >>"$kept/seen"
}
ask "$url/v1/payment_intents" -d amount=2000 -d currency=usd -H 'Idempotency-Key: order-7'
ask "$url/v1/payment_intents/pi_0000000000000002/confirm" -d payment_method=pm_card_visa
ask "$url/v1/payment_intents" -d amount=1099 -d currency=eur -d payment_method=pm_card_visa_chargeDeclined -d confirm=true
ask "$url/v1/payment_intents" -d amount=2000 -d currency=usd -H 'Idempotency-Key: order-7'
ask "$url/v1/payment_intents" -d amount=49 -d currency=usd
ask "$url/v1/balance"
wait "$server"

# The record is the history, whose last line is `end N`, and the summary behind it.
sed '/^end [0-9]*$/q' "$kept/record" >"$kept/history"
sed '1,/^end [0-9]*$/d' "$kept/record" >"$kept/summary"
"$PAYHOST" replay <"$kept/history" >"$kept/replayed"

# The replies are those that the clients saw, and the summary is the server's.
sed -n 's/^reply [0-9]* //p' "$kept/replayed" >"$kept/again"
sed '/^reply /d' "$kept/replayed" >"$kept/summed"
cmp "$kept/seen" "$kept/again"
cmp "$kept/summary" "$kept/summed"
cat "$kept/again" "$kept/summary"
