#!/usr/bin/env bash
# Requests a second through `payhost stdio`, and its memory, for more and more creates in one session, for as many retrieves
# behind them, whose look-up reads the rows, and for as many creates each under an idempotency key of its own, whose look-up
# reads the records of keys; then one request with each of the worst bodies and heads, none of which may take over 50 ms.
# Wants python3.
#
#   bench/stdio.sh [CREATES ..]     how many creates, one session each (1000 2000 4000)
#
# Ends with 1 where a worst request takes too long or isn't answered as it should be.
set -eu
cd "$(dirname "$0")/.."
./payhost stdio </dev/null
echo "processors: $(nproc); load at the start: $(cut -d' ' -f1-3 /proc/loadavg)"
exec python3 - crates/payhost/out/payhost "${@:-1000 2000 4000}" <<'PYTHON'
import os, subprocess, sys, tempfile

program = sys.argv[1]
counts = [int(n) for n in " ".join(sys.argv[2:]).split()]
KEY = "Authorization: Bearer sk_test_payhost\r\n"


def request(body, head=""):
    return (
        "POST /v1/payment_intents HTTP/1.1\r\nHost: localhost\r\n" + KEY + head
        + "Content-Length: %d\r\n\r\n%s" % (len(body), body)
    ).encode()


def run(text):
    """Processor seconds, peak memory in KiB, and the output of one session."""
    with tempfile.TemporaryFile() as source, tempfile.TemporaryFile() as sink:
        source.write(text)
        source.seek(0)
        child = subprocess.Popen([program, "stdio"], stdin=source, stdout=sink)
        _, _, used = os.wait4(child.pid, 0)
        took = used.ru_utime + used.ru_stime
        sink.seek(0)
        return took, used.ru_maxrss, sink.read()


def under_key(i):
    """A create under the i-th key, which has the length of those that client libraries make."""
    return request("amount=2000&currency=usd", "Idempotency-Key: 7c9e6679-7425-40de-944b-%012d\r\n" % i)


create = request("amount=2000&currency=usd")
empty = min(run(b"")[0] for _ in range(5))
print("an empty session takes %.1f ms of a processor" % (1000 * empty))
retrieve = b"GET /v1/payment_intents/pi_0000000000000002 HTTP/1.1\r\nHost: localhost\r\n" + KEY.encode() + b"\r\n"
print("%8s %10s %10s %12s %16s %12s %12s %12s %12s" % (
    "creates", "seconds", "a second", "peak memory", "bytes a create", "retrieves", "a second", "under keys", "a second"))
_, base, _ = run(b"")
for count in counts:
    took, peak, output = run(create * count)
    answered = output.count(b"HTTP/1.1 200 OK\r\n")
    if answered != count:
        sys.exit("%d creates, but %d were answered" % (count, answered))
    both, _, output = run(create * count + retrieve * count)
    if output.count(b"HTTP/1.1 200 OK\r\n") != 2 * count:
        sys.exit("%d retrieves weren't all answered" % count)
    keyed, _, output = run(b"".join(under_key(i) for i in range(count)))
    if output.count(b"HTTP/1.1 200 OK\r\n") != count or b"Idempotent-Replayed" in output:
        sys.exit("%d creates under keys of their own weren't all carried out" % count)
    print("%8d %10.3f %10.0f %8d KiB %16.0f %12.3f %12.0f %12.3f %12.0f" % (
        count, took, count / took, peak, 1024 * (peak - base) / count, both - took, count / (both - took), keyed, count / keyed))

LIMIT = 65536


def filled(make):
    """As many pairs as a body holds."""
    pairs, size, i = [], 0, 0
    while True:
        pair = make(i)
        if size + len(pair) + 1 > LIMIT:
            return "&".join(pairs)
        pairs.append(pair)
        size += len(pair) + 1
        i += 1


def head_of(lines, size):
    """A head of so many header lines, and of so many bytes."""
    fixed = len("POST /v1/payment_intents HTTP/1.1\r\nHost: localhost\r\n" + KEY + "Content-Length: 24\r\n\r\n")
    room = size - fixed
    each = room // lines
    made = ["X-%02d: " % i for i in range(lines)]
    text = "".join(name + "a" * (each - len(name) - 2) + "\r\n" for name in made)
    return text[:-2] + "a" * (room - len(text)) + "\r\n"


create_with = "amount=2000&currency=usd&"
worst = [
    ("65,536 bytes of a[]=1", request(filled(lambda i: "a[]=1")), b"400"),
    ("65,536 bytes of a[]", request(filled(lambda i: "a[]")), b"400"),
    ("different names", request(filled(lambda i: "n%d=1" % i)), b"400"),
    ("keys of one map", request(filled(lambda i: "metadata[k%d]=1" % i)), b"400"),
    ("one metadata value", request(create_with + "metadata[a]=" + "x" * (LIMIT - 37)), b"400"),
    ("one description", request(create_with + "description=" + "%41" * 21000), b"400"),
    ("a head of 60 lines, 16,384 bytes", request("amount=2000&currency=usd", head_of(60, 16384)), b"200"),
    ("a head of one line, 16,384 bytes", request("amount=2000&currency=usd", head_of(1, 16384)), b"200"),
    ("a head without an end", b"GET / HTTP/1.1\r\nX: " + b"a" * 16384, b"431"),
    ("a head of short lines without an end", b"GET / HTTP/1.1\r\n" + b"X:a\r\n" * 3300, b"431"),
    ("16,383 bytes before a request", b"\r\n" * 8191 + b"\n", b""),
]
print("%-40s %10s %8s" % ("one request", "ms", "status"))
slow = False
for name, text, status in worst:
    tries = [run(text) for _ in range(5)]
    took = 1000 * min(t[0] for t in tries)
    got = tries[0][2][9:12]
    print("%-40s %10.1f %8s" % (name, took, got.decode() or "none"))
    if took > 50 or got != status:
        slow = True
if slow:
    sys.exit("a request took over 50 ms, or wasn't answered as it should be")
PYTHON
