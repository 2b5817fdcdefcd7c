"""HTTP/1.1 and 1.0 over one connection: what a list of bytes is read as, and how a reply is written.

RFC 9112 in the form of the profile. Whatever pieces the bytes came in, they mean the same.
"""

import base64
import binascii
import re
from collections import namedtuple

MOST_HEAD = 16384
MOST_LINES = 66
MOST_BODY = 65536

# A request as the book enters it; what isn't given is None. `waits` is whether its client waits for 100 Continue.
Request = namedtuple("Request", "method path query auth key account body close waits")

# What stands at the beginning of the bytes: `more` (nothing whole yet), `end`, `cut`, `close` with the name of the
# error, or `request` with the request and the bytes behind it.
Item = namedtuple("Item", "kind value rest", defaults=(None, b""))

TOKEN = rb"[!#$%&'*+\-.^_`|~0-9A-Za-z]+"
REQUEST_LINE = re.compile(rb"(" + TOKEN + rb") ([^\x00-\x20\x7f]+) HTTP/1\.([01])")
HEADER_LINE = re.compile(rb"(" + TOKEN + rb"):([\t\x20-\x7e\x80-\xff]*)")
LINE = re.compile(rb"([^\n]*?)\r?\n")


def first_item(data, ended):
    """What the bytes begin with; `ended` says that no more follow."""
    start = len(data) - len(data.lstrip(b"\r\n"))
    found = re.compile(rb"\n\r?\n").search(data[:MOST_HEAD], start)
    if found is None:
        if len(data) >= MOST_HEAD:
            return Item("close", "head_too_large")
        if not ended:
            return Item("more")
        return Item("end" if start == len(data) else "cut")
    lines = [line for line in LINE.findall(data[start : found.end()])]
    fault = closing_fault(data[:start], lines)
    if fault:
        return Item("close", fault)
    method, target, minor = REQUEST_LINE.fullmatch(lines[0]).groups()
    headers = [read_header(line) for line in lines[1:-1]]
    length = int(lengths(headers)[0] if lengths(headers) else b"0")
    end = found.end() + length
    if len(data) < end:
        return Item("cut" if ended else "more")
    request = read_request(method, target, minor, headers, data[found.end() : end])
    return Item("request", request, data[end:])


def closing_fault(before, lines):
    """Why the connection is closed after this head, or None. The order is that of the profile."""
    if len(lines) > MOST_LINES:
        return "head_too_large"
    version = re.search(rb"HTTP/([0-9]\.[0-9])\Z", lines[0])
    if version and version[1] not in (b"1.0", b"1.1"):
        return "version"
    if not is_head(before, lines):
        return "malformed"
    method = lines[0].split(b" ")[0]
    headers = [read_header(line) for line in lines[1:-1]]
    if method not in (b"GET", b"POST", b"DELETE"):
        return "not_implemented"
    if values(headers, b"transfer-encoding"):
        return "not_implemented"
    if any(value.lower() != b"identity" for value in values(headers, b"content-encoding")):
        return "not_implemented"
    if not all(re.fullmatch(rb"[0-9]+", value) for value in values(headers, b"content-length")):
        return "malformed"
    if len(set(lengths(headers))) > 1:
        return "malformed"
    # A length of more digits is larger, however many there are.
    if any(len(number) > 9 or int(number) > MOST_BODY for number in lengths(headers)):
        return "body_too_large"
    return None


def is_head(before, lines):
    """Whether the lines are a request line, headers and an empty line, behind whole line ends."""
    if not re.fullmatch(rb"(\r?\n)*", before):
        return False
    request_line = REQUEST_LINE.fullmatch(lines[0])
    if not request_line or not all(HEADER_LINE.fullmatch(line) for line in lines[1:-1]):
        return False
    return is_utf8(request_line[2])


def is_utf8(data):
    try:
        data.decode("utf-8")
        return True
    except UnicodeDecodeError:
        return False


def read_header(line):
    """The name in lower case, and the value without the blanks around it."""
    name, value = HEADER_LINE.fullmatch(line).groups()
    return name.lower(), value.strip(b" \t")


def values(headers, name):
    return [value for header, value in headers if header == name]


def first(headers, name):
    return next(iter(values(headers, name)), None)


def lengths(headers):
    """The numbers of the Content-Length lines, without zeros in front."""
    return [value.lstrip(b"0") or b"0" for value in values(headers, b"content-length")]


def read_request(method, target, minor, headers, body):
    path, mark, query = target.partition(b"?")
    tokens = [token for value in values(headers, b"connection") for token in value.split(b",")]
    expects = [value.lower() for value in values(headers, b"expect")]
    return Request(
        method=method,
        path=path,
        query=query if mark else None,
        auth=credential(first(headers, b"authorization")),
        key=first(headers, b"idempotency-key"),
        account=first(headers, b"stripe-account"),
        body=body,
        close=minor == b"0" or b"close" in [token.strip(b" \t").lower() for token in tokens],
        waits=minor == b"1" and b"100-continue" in expects and len(body) > 0,
    )


def credential(value):
    """The key of an Authorization line (RFC 6750, RFC 7617), or None."""
    if value is None:
        return None
    scheme, space, rest = value.partition(b" ")
    if not space:
        return None
    if scheme.lower() == b"bearer":
        return rest
    if scheme.lower() == b"basic":
        try:
            text = base64.b64decode(rest, validate=True)
        except binascii.Error:
            return None
        # RFC 4648 section 3.5: what isn't the one encoding of its bytes is refused.
        if base64.b64encode(text) != rest or b":" not in text:
            return None
        return text.split(b":")[0]
    return None


REASONS = {
    200: "OK", 400: "Bad Request", 401: "Unauthorized", 402: "Payment Required", 404: "Not Found", 409: "Conflict",
    413: "Content Too Large", 431: "Request Header Fields Too Large", 500: "Internal Server Error",
    501: "Not Implemented", 503: "Service Unavailable", 505: "HTTP Version Not Supported",
}

CONTINUE = b"HTTP/1.1 100 Continue\r\n\r\n"


def written(status, text, retry, close, replayed=False):
    """The bytes of a reply; `close` says that the connection ends after it."""
    body = text.encode()
    lines = [
        f"HTTP/1.1 {status} {REASONS[status]}",
        "Content-Type: application/json",
        f"Content-Length: {len(body)}",
    ]
    if replayed:
        lines.append("Idempotent-Replayed: true")
    if retry:
        lines.append("Stripe-Should-Retry: true")
    if close:
        lines.append("Connection: close")
    return "".join(line + "\r\n" for line in lines + [""]).encode() + body
