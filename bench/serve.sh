#!/usr/bin/env bash
# Requests a second and latencies of `payhost serve`, at 1, 16 and 64 connections: creates and retrieves, beside two
# yardsticks that the same script starts in the same run: a bare net/http handler of Go and a bare aiohttp handler of Python, each
# of which parses the form and answers 503 fixed bytes, as long as a payment intent. Wants wrk, and of go and aiohttp those that
# are there; a yardstick that is missing is left out, and the script says so.
#
#   bench/serve.sh [SECONDS]     how long each measure takes (3)
#
# Ends with 1 where payhost answered anything but 200 to a request, or ended: its book has room for 200,000 entries, which a long
# measure fills.
#
# A worker serves one connection at a time, up to 1,000 requests of it, and the others wait until one is free: so at 16 and 64
# connections payhost is measured with 4 workers, and beside that with 16, the most that it takes (docs/PROFILE.md).
set -eu
cd "$(dirname "$0")/.."
seconds=${1:-3}
if ! command -v wrk >/dev/null 2>&1; then
    echo "bench/serve.sh: there is no wrk here, so nothing was measured (Debian: apt-get install wrk)" >&2
    exit 0
fi
python=${PYTHON:-/usr/bin/python3}
# The program is $PAYHOST, or the one that ./payhost builds where that is needed.
if [ -z "${PAYHOST:-}" ]; then
    ./payhost stdio </dev/null
    PAYHOST=crates/payhost/out/payhost
fi
room=$(mktemp -d)
pids=
cleanup() {
    for pid in $pids; do
        kill "$pid" 2>/dev/null || true
    done
    rm -rf "$room"
}
trap cleanup EXIT
echo "processors: $(nproc); load at the start: $(cut -d' ' -f1-3 /proc/loadavg)"

cat >"$room/create.lua" <<'LUA'
wrk.method = "POST"
wrk.path = "/v1/payment_intents"
wrk.body = "amount=2000&currency=usd"
wrk.headers["Authorization"] = "Bearer sk_test_payhost"
wrk.headers["Content-Type"] = "application/x-www-form-urlencoded"
LUA
cat >"$room/retrieve.lua" <<'LUA'
wrk.path = "/v1/payment_intents/pi_0000000000000002"
wrk.headers["Authorization"] = "Bearer sk_test_payhost"
LUA

# Waits until somebody listens on a port.
wait_for() {
    for _ in $(seq 200); do
        if (exec 3<>"/dev/tcp/127.0.0.1/$1") 2>/dev/null; then
            return 0
        fi
        sleep 0.1
    done
    echo "nobody listens on $1" >&2
    exit 1
}

# Runs wrk and prints: requests a second, latency at the 50th and the 99th percentile, replies that weren't 2xx, connects, reads and
# writes that failed, and requests that took more than wrk's 2 seconds.
measure() {
    wrk -t "$2" -c "$3" -d "${seconds}s" --latency -s "$room/$4.lua" "http://127.0.0.1:$1" >"$room/out" 2>&1 || {
        cat "$room/out" >&2
        exit 1
    }
    awk '/Requests\/sec/ { rate = $2 } $1 == "50%" { half = $2 } $1 == "99%" { most = $2 } /Non-2xx/ { other = $NF }
        /Socket errors/ { failed = $4 + $6 + $8; late = $10 }
        END { printf "%s %s %s %d %d %d", rate, half, most, other, failed, late }' "$room/out"
}

memory() {
    awk '/VmHWM/ { print $2 }' "/proc/$1/status"
}

start_payhost() {
    "$PAYHOST" serve --port 12181 --workers "$1" >"$room/summary" 2>"$room/said" &
    payhost=$!
    pids="$pids $payhost"
    for _ in $(seq 100); do
        grep -q listening "$room/said" && return 0
        sleep 0.05
    done
    cat "$room/said" >&2
    exit 1
}

# Ends payhost behind a measure. It has to be there still, and to have answered each request by 2xx.
end_payhost() {
    if ! kill "$payhost" 2>/dev/null; then
        echo "payhost ended while it was measured:" >&2
        cat "$room/said" "$room/summary" >&2
        exit 1
    fi
    wait "$payhost" 2>/dev/null || true
    pids=${pids% "$payhost"}
    # shellcheck disable=SC2086
    set -- $1
    if [ "$4" -gt 0 ]; then
        echo "$4 replies of payhost weren't 2xx" >&2
        exit 1
    fi
}

# Sends one create, and waits for its reply.
create_one() {
    exec 3<>/dev/tcp/127.0.0.1/12181
    printf 'POST /v1/payment_intents HTTP/1.1\r\nHost: localhost\r\nConnection: close\r\nAuthorization: Bearer sk_test_payhost\r\nContent-Length: 24\r\n\r\namount=2000&currency=usd' >&3
    cat <&3 >/dev/null
    exec 3<&-
}

others=
if command -v go >/dev/null 2>&1; then
    cat >"$room/main.go" <<'GO'
package main

import (
	"net/http"
	"os"
	"strings"
)

func main() {
	body := []byte(strings.Repeat("x", 503))
	http.HandleFunc("/", func(w http.ResponseWriter, r *http.Request) {
		if r.ParseForm() != nil {
			w.WriteHeader(400)
			return
		}
		w.Header().Set("Content-Type", "application/json")
		w.Write(body)
	})
	if http.ListenAndServe("127.0.0.1:12182", nil) != nil {
		os.Exit(1)
	}
}
GO
    (cd "$room" && GOCACHE="$room/cache" GO111MODULE=off go build -o handler main.go)
    "$room/handler" &
    go=$!
    pids="$pids $go"
    wait_for 12182
    others="$others go"
else
    echo "there is no go here: the net/http handler is left out (Debian: apt-get install golang-go)" >&2
fi
if "$python" -c 'import aiohttp' 2>/dev/null; then
    cat >"$room/handler.py" <<'PY'
from aiohttp import web

BODY = b"x" * 503


async def answer(request):
    await request.post()
    return web.Response(body=BODY, content_type="application/json")


app = web.Application()
app.router.add_route("*", "/{path:.*}", answer)
web.run_app(app, host="127.0.0.1", port=12183, print=None, access_log=None)
PY
    "$python" "$room/handler.py" &
    aiohttp=$!
    pids="$pids $aiohttp"
    wait_for 12183
    others="$others aiohttp"
else
    echo "$python has no aiohttp: that handler is left out (Debian: apt-get install python3-aiohttp)" >&2
fi

printf '%-10s %-9s %-12s %10s %9s %9s %6s %6s %6s %10s\n' server requests connections 'a second' '50 %' '99 %' other failed late 'peak KiB'
for connections in 1 16 64; do
    threads=1
    [ "$connections" -gt 1 ] && threads=2
    workers=4
    [ "$connections" -gt 4 ] && workers="4 16"
    for requests in create retrieve; do
        for count in $workers; do
            # A book of its own for each measure: one create stands in it for the retrieves.
            start_payhost "$count"
            create_one
            line=$(measure 12181 "$threads" "$connections" "$requests")
            # shellcheck disable=SC2086
            printf '%-10s %-9s %-12s %10s %9s %9s %6s %6s %6s %10s\n' "payhost:$count" "$requests" "$connections" $line "$(memory "$payhost")"
            end_payhost "$line"
        done
        for other in $others; do
            if [ "$other" = go ]; then port=12182 pid=$go; else port=12183 pid=$aiohttp; fi
            line=$(measure "$port" "$threads" "$connections" "$requests")
            # shellcheck disable=SC2086
            printf '%-10s %-9s %-12s %10s %9s %9s %6s %6s %6s %10s\n' "$other" "$requests" "$connections" $line "$(memory "$pid")"
        done
    done
done
