#!/usr/bin/env bash
# Peers that mean no good, against `payhost serve` with 4 workers: one that never reads, one that sends a byte a second, 10,000
# connects that say nothing and close, heads without end, a reset in the middle of a body. While each of them is there, honest clients
# create and retrieve on the other workers; in the end the summary has to count exactly their calls, and memory has to be flat. Wants
# python3.
#
#   bench/hostile.sh [CONNECTS]     how many connects say nothing (10000)
#
# Ends with 1 where an honest client wasn't answered, where the summary is another, or where memory grew.
set -eu
cd "$(dirname "$0")/.."
if ! command -v python3 >/dev/null 2>&1; then
    echo "bench/hostile.sh: there is no python3 here, so nothing was tried (Debian: apt-get install python3)" >&2
    exit 0
fi
# The program is $PAYHOST, or the one that ./payhost builds where that is needed.
if [ -z "${PAYHOST:-}" ]; then
    ./payhost stdio </dev/null
    PAYHOST=crates/payhost/out/payhost
fi
exec python3 - "$PAYHOST" "${1:-10000}" <<'PYTHON'
import atexit, re, socket, struct, subprocess, sys, threading, time

program, connects = sys.argv[1], int(sys.argv[2])
PORT, WORKERS = 12191, 4
KEY = "Authorization: Bearer sk_test_payhost\r\n"
CREATE = ("POST /v1/payment_intents HTTP/1.1\r\nHost: localhost\r\n" + KEY + "Content-Length: 24\r\n\r\namount=2000&currency=usd").encode()
RETRIEVE = ("GET /v1/payment_intents/pi_0000000000000002 HTTP/1.1\r\nHost: localhost\r\n" + KEY + "\r\n").encode()

# Each worker serves so many connections that the server ends by itself when all are through: they are counted below.
opened = 0
lock = threading.Lock()


class Peer(socket.socket):
    """A connection that may carry what its peer has still to send."""


def connect(timeout=30):
    global opened
    peer = Peer(socket.AF_INET, socket.SOCK_STREAM)
    peer.settimeout(timeout)
    peer.connect(("127.0.0.1", PORT))
    peer.setsockopt(socket.IPPROTO_TCP, socket.TCP_NODELAY, 1)
    with lock:
        opened += 1
    return peer


def reply_of(peer):
    """One reply: its status and its body."""
    read = b""
    while b"\r\n\r\n" not in read:
        more = peer.recv(65536)
        if not more:
            return None
        read += more
    head, body = read.split(b"\r\n\r\n", 1)
    length = int(re.search(rb"Content-Length: (\d+)", head).group(1))
    while len(body) < length:
        more = peer.recv(65536)
        if not more:
            return None
        body += more
    return int(head.split()[1]), body


def reset(peer):
    """Closes with a reset in place of an end."""
    peer.setsockopt(socket.SOL_SOCKET, socket.SO_LINGER, struct.pack("ii", 1, 0))
    peer.close()


def memory(child):
    for line in open("/proc/%d/status" % child.pid):
        if line.startswith("VmRSS"):
            return int(line.split()[1])


calls = 0
failed = []


def honest(name, rounds=20):
    """A client that means well: its requests are answered, one after another."""
    global calls
    try:
        peer = connect()
        for i in range(rounds):
            peer.sendall(CREATE if i % 2 == 0 else RETRIEVE)
            got = reply_of(peer)
            with lock:
                calls += 1
            if got is None or got[0] != 200:
                failed.append("%s: request %d got %r" % (name, i, got))
                break
        peer.close()
    except OSError as why:
        failed.append("%s: an honest client wasn't served: %s" % (name, why))


def meanwhile(name, work):
    """Does this work beside what follows, until the thread that is answered is joined."""
    def tried():
        try:
            work()
        except OSError as why:
            failed.append("%s: %s" % (name, why))

    thread = threading.Thread(target=tried)
    thread.start()
    return thread


def beside(name, hostile):
    """A hostile peer, and two honest clients while it is there."""
    peer = hostile()
    begun = time.time()
    clients = [threading.Thread(target=honest, args=(name,)) for _ in range(2)]
    for client in clients:
        client.start()
    for client in clients:
        client.join()
    print("%-44s honest clients answered in %.2f s" % (name, time.time() - begun))
    return peer


each = (connects + 200) // WORKERS
child = subprocess.Popen([program, "serve", "--port", str(PORT), "--workers", str(WORKERS), "--connections", str(each)],
                         stdout=subprocess.PIPE, stderr=subprocess.PIPE, text=True)
# However this script ends, the server ends with it.
atexit.register(child.kill)
said = child.stderr.readline()
if "listening" not in said:
    sys.exit(said)


def create_large():
    """A payment intent whose document has 25 kB, so that few replies fill the buffers between two peers."""
    fields = "amount=2000&currency=usd" + "".join("&metadata[key%02d]=%s" % (i, "x" * 500) for i in range(50))
    return ("POST /v1/payment_intents HTTP/1.1\r\nHost: localhost\r\n" + KEY + "Content-Length: %d\r\n\r\n%s" % (len(fields), fields)).encode()


DEAF = 600


def never_reads():
    """Sends requests, of whose replies it reads none, until no more go out: its worker waits within a write."""
    global calls
    peer = connect()
    peer.sendall(create_large())
    status, body = reply_of(peer)
    large = re.search(rb'"id":"(pi_[0-9]+)"', body).group(1).decode()
    peer.text = RETRIEVE.replace(b"pi_0000000000000002", large.encode()) * DEAF
    peer.setblocking(False)
    sent, tries = 0, 0
    while sent < len(peer.text) and tries < 20:
        try:
            sent += peer.send(peer.text[sent:])
        except BlockingIOError:
            tries += 1
            time.sleep(0.05)
    peer.sent = sent
    return peer


def drain(peer):
    """Sends what is left and reads all replies, so that the calls of the one that never read are known."""
    global calls
    peer.setblocking(True)
    rest = threading.Thread(target=peer.sendall, args=(peer.text[peer.sent:],))
    rest.start()
    read, behind, line = 0, b"", b"HTTP/1.1 200 OK"
    while read < DEAF:
        more = peer.recv(1 << 20)
        if not more:
            failed.append("the one that never read got %d replies" % read)
            break
        read += (behind + more).count(line)
        behind = (behind + more)[-len(line) + 1:]
    rest.join()
    calls += 1 + DEAF
    peer.close()


def byte_by_byte():
    peer = connect()

    def drip():
        for i in range(5):
            try:
                peer.sendall(CREATE[i:i + 1])
            except OSError:
                return
            time.sleep(1)

    threading.Thread(target=drip, daemon=True).start()
    return peer


def endless_head():
    peer = connect()
    got = None
    # The refusal may be lost, since what wasn't read of the head makes the close a reset.
    try:
        peer.sendall(b"GET / HTTP/1.1\r\n" + b"X: a\r\n" * 20000)
        got = reply_of(peer)
    except OSError:
        pass
    if got is not None and got[0] != 431:
        failed.append("a head without end got %r" % (got,))
    return peer


def resets_in_body():
    for _ in range(20):
        peer = connect()
        peer.sendall(CREATE[:-10])
        time.sleep(0.05)
        reset(peer)


def nothing_said():
    for _ in range(connects):
        connect().close()


honest("alone")
before = memory(child)
dripping = beside("a byte a second", byte_by_byte)
reset(dripping)
beside("heads without end", endless_head).close()
name = "resets in the middle of a body"
beside(name, lambda: meanwhile(name, resets_in_body)).join()
name = "%d connects that say nothing" % connects
beside(name, lambda: meanwhile(name, nothing_said)).join()
behind = memory(child)
deaf = beside("one that never reads", never_reads)
during = memory(child)
drain(deaf)
honest("after all")
print("memory: %d KiB at first, %d KiB behind all peers but the last, %d KiB while that one didn't read" % (before, behind, during))
if max(behind, during) > before + 4096:
    failed.append("memory grew")

# The server ends when each of its workers has served its connections, and then tells its summary.
last = time.time() + 60
while child.poll() is None:
    if time.time() > last:
        sys.exit("the server took %d connections and hasn't ended" % opened)
    if opened < each * WORKERS:
        try:
            connect(1).close()
        except OSError:
            break
    else:
        time.sleep(0.05)
summary, told = child.communicate(timeout=30)
print(summary, end="")
print(told, end="")
if child.returncode != 0:
    failed.append("the status is %d" % child.returncode)
if "calls %d\n" % calls not in summary:
    failed.append("%d calls were answered, and the summary has another number" % calls)
for line in failed:
    print(line)
sys.exit(1 if failed else 0)
PYTHON
