"""Put resources in a loop, and print the numbers of the answered puts. Runs inside the machine, and imports no test."""
from __future__ import annotations

import http.client
import sys
import time

# The number of names that the puts repeat, and about the longest body in bytes.
NAMES, LONGEST = 40, 30_000


def name(word: str, number: int) -> str:
    """Return the name for the put of a number."""
    return f"{word}{number % NAMES}"


def body(number: int) -> bytes:
    """Return the body for the put of a number, which begins with the number."""
    return (b"%d " % number).ljust(number * 7_919 % LONGEST + 12, b"%d" % (number % 10))


def request(port: int, method: str, path: str, sent: bytes | None = None) -> tuple[int, bytes]:
    """Return the status and the body of a response."""
    connection = http.client.HTTPConnection("127.0.0.1", port, timeout=30)
    try:
        connection.request(method, path, sent)
        answer = connection.getresponse()
        return answer.status, answer.read()
    finally:
        connection.close()


def put(port: int, word: str, number: int) -> None:
    """Put one resource until the source accepts it; print `begun N` before and `answered N` after."""
    print("begun", number, flush=True)
    while True:
        try:
            if request(port, "PUT", f"/resource/{name(word, number)}", body(number))[0] in (201, 204):
                break
        except (OSError, http.client.HTTPException):
            pass
        time.sleep(0.02)
    print("answered", number, flush=True)


def tell_resources(port: int, word: str) -> None:
    """Print `NAME N` for every name in the source: N is the number of the put of its body, or -1 without such a put."""
    for place in range(NAMES):
        status, found = request(port, "GET", f"/resource/{name(word, place)}")
        if status == 404:
            continue
        number = int(found.partition(b" ")[0]) if status == 200 and found.partition(b" ")[0].isdigit() else -1
        print(name(word, place), number if number >= 0 and found == body(number) and number % NAMES == place else -1)


def main() -> None:
    """Put forever, with rising numbers (`put PORT WORD FIRST`), or print the held names (`held PORT WORD`)."""
    port, word = int(sys.argv[2]), sys.argv[3]
    if sys.argv[1] == "held":
        tell_resources(port, word)
        return
    number = int(sys.argv[4])
    while True:
        put(port, word, number)
        number += 1
