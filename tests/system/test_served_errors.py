"""Tests of a server whose calls return errors (test_errors.py has the rules, and the errors of the other commands)."""
from collections.abc import Iterator
from dataclasses import dataclass
from pathlib import Path

import pytest

from tests import hunting
from tests.program import STILL_CLOCK, interposed
from tests.system.edge_runs import HOST, TOO_LONG, run
from tests.system.test_errors import DISK, FORMAT, KEPT, OF_FILES, End, chosen, end_of, state_of, wrong_calls
from tests.system.traced_calls import Call, Failure, served

pytestmark = [pytest.mark.plain, pytest.mark.needs("strace", "cc"), pytest.mark.timeout(900)]

CONTINUE = b"HTTP/1.1 100 Continue\r\n\r\n"
GET = b"GET /resource/kept " + HOST + b"\r\n"
# A request of each kind; a GET follows it.
REQUESTS = {
    "PUT": b"PUT /resource/c " + HOST + b"Expect: 100-continue\r\nContent-Length: 40000\r\n\r\n" + b"x" * 40_000,
    "GET": GET,
    "POST": b"POST /publish " + HOST + b"\r\n",
    "a refused PUT": TOO_LONG,
}
WORDS = {b"": "nothing", CONTINUE: "100"}
REFUSALS = {"Device": b"HTTP/1.1 500 ", "Closed": b"HTTP/1.1 503 "}
USUAL = {"usual"}


def word_of(response: bytes, usual: bytes) -> str:
    """Return a word for a response, given the usual one."""
    if response == usual or response in WORDS:
        return "usual" if response == usual else WORDS[response]
    for word, status in REFUSALS.items():
        if response.removeprefix(CONTINUE).startswith(status) and response.endswith(f"\r\n\r\n{word}\n".encode()):
            return word
    return "part" if usual.startswith(response) else repr(response[:60])


@dataclass
class Asked:
    """A request and the GET after it, without an error: the responses, and the states before and after."""

    program: str
    kind: str
    env: dict[str, str]

    def __post_init__(self) -> None:
        """Send the requests."""
        self.requests = [REQUESTS[self.kind], GET]
        self.disk, self.before = Path(DISK).read_bytes(), state_of(self.program, DISK)
        self.clean, self.responses = served(self.program, DISK, self.requests, env=self.env)
        self.after = state_of(self.program, DISK)
        names = [call.name for call in self.clean.calls]
        self.first = names.index("accept4")
        self.second = names.index("accept4", self.first + 1)

    def wanted(self, failure: Failure) -> tuple[bytes, list[set[str]], set[bytes]]:
        """Return the message, the words for the responses, and the possible states of the file afterwards."""
        call, at = failure.call, self.clean.calls.index(failure.call)
        before = [it.name for it in self.clean.calls[self.first : at]]
        end = end_of(failure, b"" if at < self.first else b"show" if self.kind == "GET" else b"put")
        if at < self.first and end is not End.USUAL:
            return end.value, [], {self.before}
        match call.name:
            case "accept4" if end is not End.USUAL:
                return b"", [USUAL, {"nothing"}], {self.after}
            case _ if end is End.USUAL or "shutdown" in (*before, call.name):
                return b"", [USUAL, USUAL], {self.after}
            case "recvfrom":
                return b"", [{"100" if "recvfrom" in before else "nothing"}, USUAL], {self.before}
            case "sendto":
                is_continue = self.responses[0].startswith(CONTINUE) and "sendto" not in before
                sent = {"nothing", "100"} if is_continue else {"nothing", "100", "part", "usual"}
                return b"", [sent, USUAL], {self.before if is_continue else self.after}
            case _ if end is End.OPEN:
                return b"", [{"Device"}, USUAL], {self.after}
        return b"", [{"Device"}, {"Closed"}], {self.before, self.after}

    def failures(self, is_long: bool) -> list[Failure]:
        """Return the failures up to the connection of the GET; the end of a connection cannot be left out."""
        kinds: dict[object, list[Call]] = {}
        for at, call in enumerate(self.clean.calls[: self.second + 1]):
            if call.name not in ("close", *(OF_FILES if at < self.first else ())):
                kinds.setdefault((call.name, at < self.first), []).append(call)
        return chosen(kinds, is_long)

    def faults(self, failure: Failure) -> Iterator[str]:
        """Yield the differences of a server with this failure."""
        Path(DISK).write_bytes(self.disk)
        messages, wanted, states = self.wanted(failure)
        found, responses = served(self.program, DISK, self.requests, failure, self.env)
        words = [word_of(*pair) for pair in zip(responses, self.responses)]
        what = f"{self.kind}: {failure.error} of {failure.call.name} {failure.call.number}"
        if (found.status, found.messages) != (bool(messages), messages):
            yield f"{what}: {found.status} {found.messages!r}, wanted {messages!r}"
        if len(words) != len(wanted) or not all(word in one for word, one in zip(words, wanted)):
            yield f"{what}: {words}, wanted {wanted}"
        if state_of(self.program, DISK) not in states:
            yield f"{what}: the file has another state"
        has_ended = bool(messages) or {"Closed"} in wanted
        yield from (f"{what}: {fault}" for fault in wrong_calls(found, self.clean, failure, has_ended))


@pytest.fixture
def asked(program: str, room: Path, request: pytest.FixtureRequest) -> Asked:
    """Return the usual course of a request of this kind."""
    run(program, room, *FORMAT)
    run(program, room, "run", DISK, script=KEPT)
    return Asked(program, request.param, interposed(room, "still", STILL_CLOCK))


@pytest.mark.parametrize("asked", REQUESTS, indirect=True)
def test_an_error_of_a_server_has_its_documented_result(asked: Asked, request: pytest.FixtureRequest) -> None:
    failures = asked.failures(request.config.getoption("--long"))
    hunting.report([fault for failure in failures for fault in asked.faults(failure)])


@pytest.mark.parametrize("asked", REQUESTS, indirect=True)
def test_only_the_rest_of_a_refused_request_has_a_time_limit_of_two_seconds(asked: Asked) -> None:
    of_connection = [call for call in asked.clean.calls[asked.first :] if call.name == "setsockopt"]
    assert len(of_connection) == (asked.kind == "a refused PUT")
    names = [call.name for call in asked.clean.calls]
    for call in of_connection:
        # (the first byte of a number of seconds)
        assert names[asked.clean.calls.index(call) - 1] == "shutdown" and 'SO_RCVTIMEO_OLD, "\\2\\0' in call.rest
