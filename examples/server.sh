# For the scripts beside it: payhost as a server of this machine, for as long as the script runs.
#
#   start_server WORDS ..   starts `payhost serve --port $PORT WORDS ..`, and waits until it listens
#   stop_server             stops it
#
# The program is $PAYHOST, or ./payhost, which builds it where that is needed.

PAYHOST=${PAYHOST:-./payhost}
PORT=${PORT:-12111}

start_server() {
    # The first start may have to build the program, which takes a while and says so.
    "$PAYHOST" stdio </dev/null
    said=$(mktemp)
    "$PAYHOST" serve --port "$PORT" "$@" >/dev/null 2>"$said" &
    server=$!
    trap stop_server EXIT
    trap 'exit 1' HUP INT TERM
    while ! grep -q 'listening on' "$said"; do
        if ! kill -0 "$server" 2>/dev/null; then
            cat "$said" >&2
            exit 1
        fi
        sleep 0.1
    done
    grep 'listening on' "$said" >&2
}

stop_server() {
    trap - EXIT
    kill "$server" 2>/dev/null || true
    wait "$server" 2>/dev/null || true
    rm -f "$said"
}
