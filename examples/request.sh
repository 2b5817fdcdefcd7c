# For the scripts beside it: one request to payhost, as a client sends it.
#
#   request METHOD TARGET BODY [KEY]      KEY being its idempotency key
#
# The program that they run is $PAYHOST, or ./payhost, which builds it where that is needed.

PAYHOST=${PAYHOST:-./payhost}

request() {
    printf '%s %s HTTP/1.1\r\n' "$1" "$2"
    printf 'Host: localhost\r\n'
    printf 'Authorization: Bearer sk_test_payhost\r\n'
    if [ -n "${4:-}" ]; then
        printf 'Idempotency-Key: %s\r\n' "$4"
    fi
    printf 'Content-Length: %s\r\n\r\n%s' "${#3}" "$3"
}
