"""`Transfers` streams many bodies over some connections, with separate results."""
from __future__ import annotations

import contextlib
import threading
import time
from collections.abc import Iterator
from unittest import mock

import pytest

from operations.tests.harness.server import CLOSE, Answer, RawServer, Request, answer, closed_port, in_turn
from ropepeach.faults import Fault, Long, Silent, Slow
from ropepeach.http.client import Response
from ropepeach.http.limits import Spent
from ropepeach.http.transfers import Transfer, Transfers


class Noted(Transfer):
    """A transfer that notes its calls."""

    def __init__(self, url: str, limit: int = 1 << 24) -> None:
        super().__init__(url, limit)
        self.taken, self.begun = b"", list[int]()

    def begin(self, response: Response) -> None:
        """Discard the body of earlier attempts."""
        self.taken = b""
        self.begun.append(response.status)

    def take(self, piece: bytes) -> None:
        """Keep a piece."""
        assert piece and self.begun
        self.taken += piece


def result_of(result: Response | Fault) -> Response:
    """Return a result that must be a response."""
    assert isinstance(result, Response), result
    return result


def by_name(request: Request) -> Answer:
    """Answer with the body that the target names: /NAME/SIZE."""
    name, size = request.path[1:].split("/")
    return answer(name.encode() * int(size))


# Results

@pytest.mark.parametrize("connections", [1, 2, 5, 64])
@pytest.mark.parametrize("then", ["keep", "close"])
def test_each_body_goes_to_its_transfer(connections: int, then: str) -> None:
    sizes = [0, 1, 4_096, 20_000, 300_000]
    names = [f"{number:03}" for number in range(150)]

    def answers(request: Request) -> Answer:
        found = by_name(request)
        time.sleep(0.005)
        return Answer(found.pieces, then) if then == "keep" else answer(b"".join(found.pieces).partition(
            b"\r\n\r\n")[2], "200 OK", "Connection: close", then="close")

    with RawServer(answers) as server:
        transfers = Transfers(server.base, connections=connections)
        asked = [Noted(f"{server.base}/{name}/{sizes[number % 5]}") for number, name in enumerate(names)]
        ended = list(transfers.each(asked))
        assert sorted(id(transfer) for transfer, _ in ended) == sorted(map(id, asked))
        for number, transfer in enumerate(asked):
            assert transfer.taken == names[number].encode() * sizes[number % 5]
            assert transfer.begun == [200]
        assert {(result_of(result).status, result_of(result).body) for _, result in ended} == {(200, b"")}
        most = 2 if connections == 1 and then == "close" else connections
        assert min(most, 5) <= server.most_waiting <= most
        assert len(transfers.free) <= most
        if then == "keep":
            assert server.connections <= connections
        transfers.close()


def test_results_come_in_the_order_in_which_they_end() -> None:
    gates = {name: threading.Event() for name in "abc"}

    def answers(request: Request) -> Answer:
        gates[request.path[1]].wait(20)
        return by_name(request)

    with RawServer(answers) as server:
        order = []
        gates["b"].set()
        asked = [Noted(f"{server.base}/{name}/5") for name in "abc"]
        for transfer, result in Transfers(server.base, connections=3).each(asked):
            order.append(transfer.taken)
            gates["c" if transfer.taken == b"bbbbb" else "a"].set()
        assert order == [b"bbbbb", b"ccccc", b"aaaaa"]


def test_results_over_one_connection_come_in_the_order_of_the_transfers() -> None:
    """The source closes its connections, so the next request uses another one, and is answered first."""
    def answers(request: Request) -> Answer:
        time.sleep(0.1 if request.path[1] in "bd" else 0)
        return answer(b"x", "200 OK", "Connection: close", then="close")

    with RawServer(answers) as server:
        asked = [Noted(f"{server.base}/{name}/1") for name in "abcdef"]
        assert [transfer for transfer, _ in Transfers(server.base).each(asked)] == asked
        assert server.most_waiting == 2


@pytest.mark.parametrize("connections", [1, 3])
def test_next_transfer_is_taken_when_a_connection_is_free(connections: int) -> None:
    taken = [0]

    with RawServer(by_name) as server:
        def source() -> Iterator[Noted]:
            for _ in range(40):
                taken[0] += 1
                yield Noted(f"{server.base}/x/1000")

        ended = 0
        for _ in Transfers(server.base, connections=connections).each(source()):
            ended += 1
            assert taken[0] <= ended + connections * 2
        assert (taken[0], ended) == (40, 40)


def test_no_transfer_opens_no_connection() -> None:
    with RawServer(by_name) as server:
        assert not list(Transfers(server.base).each([]))
        assert server.connections == 0


def test_kept_body_is_in_the_response() -> None:
    class Kept(Transfer):
        is_kept = True

    with RawServer(by_name) as server:
        asked = [Kept(f"{server.base}/{name}/100000", 100_000) for name in "abcd"]
        for transfer, result in Transfers(server.base, connections=2).each(asked):
            assert result_of(result).body == transfer.url[-8:-7].encode() * 100_000


def test_refusal_is_a_result_with_its_body_and_is_not_taken() -> None:
    with RawServer(lambda _: answer(b"NotHeld\n", "404 Not Found", "Content-Type: text/plain")) as server:
        (transfer,) = asked = [Noted(f"{server.base}/a")]
        [(_, result)] = Transfers(server.base).each(asked)
        assert (result_of(result).status, result_of(result).body) == (404, b"NotHeld\n")
        assert (transfer.begun, transfer.taken) == ([], b"")


def test_304_is_a_result() -> None:
    with RawServer(lambda request: Answer([b"HTTP/1.1 304 Not Modified\r\nETag: " + request.fields["if-none-match"]
                                         .encode() + b"\r\n\r\n"])) as server:
        [(_, result)] = Transfers(server.base).each([Transfer(f"{server.base}/a", 9, {"If-None-Match": '"x"'})])
        assert (result_of(result).status, result_of(result).fields.get("ETag")) == (304, '"x"')


def test_fields_of_one_transfer_are_not_those_of_the_next() -> None:
    with RawServer(lambda _: answer(b"x")) as server:
        asked = [Transfer(f"{server.base}/{number}", 9, {"If-None-Match": '"x"'} if number % 2 else None)
                 for number in range(6)]
        list(Transfers(server.base).each(asked))
        found = {request.path: request.fields.get("if-none-match") for request in server.requests}
        assert found == {f"/{number}": '"x"' if number % 2 else None for number in range(6)}


# Attempts

def test_body_that_was_cut_begins_again() -> None:
    cut = Answer([b"HTTP/1.1 200 OK\r\nContent-Length: 9\r\n\r\n", b"12345"], "close")
    with RawServer(in_turn(cut, answer(b"", "503 A"), cut, answer(b"abcdefghi"))) as server:
        (transfer,) = asked = [Noted(f"{server.base}/a")]
        [(_, result)] = Transfers(server.base).each(asked)
        assert (result_of(result).status, transfer.taken, transfer.begun) == (200, b"abcdefghi", [200, 200, 200])


def test_one_that_is_asked_again_holds_up_no_other() -> None:
    def answers(request: Request) -> Answer:
        return answer(b"", "503 A", "Retry-After: 1") if request.path == "/bad/1" else by_name(request)

    with RawServer(answers) as server:
        asked = [Noted(f"{server.base}/{'bad' if number == 0 else number}/1") for number in range(30)]
        started, ended = time.monotonic(), []
        for transfer, result in Transfers(server.base, patience=1.5, connections=2).each(asked):
            ended.append((transfer.url.split("/")[3], isinstance(result, Silent), time.monotonic() - started))
        assert [name for name, is_silent, _ in ended if is_silent] == ["bad"]
        assert ended[-1][0] == "bad" and ended[-2][2] < 1 < ended[-1][2]


def test_outage_that_outlasts_the_patience_is_one_message(capsys: pytest.CaptureFixture[str]) -> None:
    with RawServer(lambda _: CLOSE) as server:
        asked = [Noted(f"{server.base}/{number}") for number in range(4)]
        results = [result for _, result in Transfers(server.base, patience=1, connections=4).each(asked)]
        assert all(isinstance(result, Silent) for result in results)
        assert capsys.readouterr().err.count("waiting up to 1 s") == 1


@pytest.mark.parametrize("connections", [1, 4, 16])
def test_each_outage_is_one_message_for_all_transfers_that_it_delays(connections: int,
                                                                     capsys: pytest.CaptureFixture[str]) -> None:
    """The server refuses connections at first, and again after some responses."""
    port = closed_port()
    url = f"http://127.0.0.1:{port}"
    servers = contextlib.ExitStack()

    def open_later() -> threading.Thread:
        """Start serving after a while."""
        thread = threading.Timer(0.5, lambda: servers.enter_context(
            RawServer(lambda request: Answer(by_name(request).pieces, "close"), port=port)))
        thread.start()
        return thread

    opening, ended = open_later(), 0
    asked = (Noted(f"{url}/{number}/5") for number in range(60))
    for _, result in Transfers(url, patience=20, connections=connections).each(asked):
        assert result_of(result).status == 200
        ended += 1
        if ended == 20:
            opening.join()
            servers.close()
            opening = open_later()
    servers.close()
    lines = capsys.readouterr().err.splitlines()
    assert (ended, len(lines)) == (60, 2)
    assert all(line.endswith("Connection refused; waiting up to 20 s") for line in lines)


def test_source_that_refuses_some_of_many_requests_is_one_message(capsys: pytest.CaptureFixture[str]) -> None:
    """Responses to other transfers do not end the outage of one."""
    with RawServer(lambda request: answer(b"", "503 A") if request.path == "/bad/1" else by_name(request)) as server:
        asked = [Noted(f"{server.base}/{'bad' if number % 50 == 0 else number}/1") for number in range(200)]
        found = [result for _, result in Transfers(server.base, patience=1, connections=8).each(asked)]
        assert sum(isinstance(result, Silent) for result in found) == 4
        assert capsys.readouterr().err.count("waiting up to 1 s") == 1


def test_outages_of_two_sources_are_two_messages(capsys: pytest.CaptureFixture[str]) -> None:
    with RawServer(lambda _: CLOSE) as one, RawServer(lambda _: CLOSE) as two:
        asked = [Noted(f"{server.base}/{number}") for number in range(3) for server in (one, two)]
        assert len(list(Transfers(one.base, patience=1, connections=6).each(asked))) == 6
        lines = capsys.readouterr().err.splitlines()
        assert sorted(url in line for line in lines for url in (one.base, two.base)) == [False, False, True, True]


def test_slow_transfer_ends_alone() -> None:
    def answers(request: Request) -> Answer:
        if request.path == "/slow/1":
            time.sleep(20)
        return by_name(request)

    with RawServer(answers) as server:
        asked = [Noted(f"{server.base}/{name}/1") for name in ("slow", "a", "b")]
        ended = {transfer.url.split("/")[3]: type(result)
                 for transfer, result in Transfers(server.base, whole=0.7, connections=2).each(asked)}
        assert ended == {"slow": Slow, "a": Response, "b": Response}


# Faults

class Odd(Noted):
    """A transfer that raises in one of its calls."""

    def __init__(self, url: str, where: str, fault: BaseException) -> None:
        super().__init__(url)
        self.where, self.fault = where, fault

    def begin(self, response: Response) -> None:
        super().begin(response)
        if self.where == "begin":
            raise self.fault

    def take(self, piece: bytes) -> None:
        super().take(piece)
        if self.where == "take":
            raise self.fault

    def redirect(self, response: Response) -> str | None:
        """Refuse to follow."""
        if self.where == "redirect":
            raise self.fault
        return None


def answers_or_redirects(request: Request) -> Answer:
    """Answer, or redirect."""
    return answer(b"", "302 Found", "Location: /a/1") if request.path == "/redirect/1" else by_name(request)


@pytest.mark.parametrize("where", ["begin", "take", "redirect"])
def test_fault_of_one_transfer_ends_it_alone(where: str) -> None:
    with RawServer(answers_or_redirects) as server:
        odd = Odd(f"{server.base}/{where}/1", where, Fault("odd"))
        asked = [Noted(f"{server.base}/a/100"), odd, *(Noted(f"{server.base}/{name}/100000") for name in "bcdef")]
        ended = {transfer.url.split("/")[3]: result
                 for transfer, result in Transfers(server.base, connections=2).each(asked)}
        assert ended.pop(where) is odd.fault
        assert {result_of(result).status for result in ended.values()} == {200}
        assert all(len(transfer.taken) >= 100 for transfer in asked if transfer is not odd)


@pytest.mark.parametrize("where", ["begin", "take", "redirect"])
@pytest.mark.parametrize("fault", [OSError(28, "No space left on device"), Spent("spent"), KeyboardInterrupt()])
def test_other_faults_end_all(where: str, fault: BaseException) -> None:
    with RawServer(answers_or_redirects) as server:
        transfers = Transfers(server.base, connections=2)
        asked = [Odd(f"{server.base}/{where}/1", where, fault), *(Noted(f"{server.base}/a/1000000") for _ in range(5))]
        with pytest.raises(type(fault)):
            for _ in transfers.each(asked):
                pass
        assert not transfers.busy and not transfers.waiting
        [(transfer, result)] = transfers.each([Noted(f"{server.base}/b/3")])
        assert (transfer.taken, result_of(result).status) == (b"bbb", 200)


def test_long_body_ends_alone() -> None:
    with RawServer(by_name) as server:
        sizes = {"a": 1_000, "b": 1_001, "c": 999}
        asked = [Noted(f"{server.base}/{name}/{size}", 1_000) for name, size in sizes.items()]
        ended = {transfer.url.split("/")[3]: type(result) for transfer, result in Transfers(server.base).each(asked)}
        assert ended == {"a": Response, "b": Long, "c": Response}
        assert asked[1].begun == []


def test_text_of_libcurl_that_is_no_utf_8_ends_in_a_line() -> None:
    with RawServer(by_name) as server:
        transfers = Transfers(server.base)
        transfers.multi = mock.Mock(**{"timeout.return_value": 0, "select.return_value": 1,
                                       "info_read.side_effect": UnicodeDecodeError("utf-8", b"\xff", 0, 1, "odd")})
        with pytest.raises(Fault, match="a certificate has a name that is no UTF-8"):
            list(transfers.each([Noted(f"{server.base}/a/1")]))


def test_results_before_a_fault_of_the_iterator_are_given() -> None:
    with RawServer(by_name) as server:
        def source() -> Iterator[Noted]:
            for name in "abc":
                yield Noted(f"{server.base}/{name}/5")
            raise Spent("no more")

        ended = []
        with pytest.raises(Spent, match="no more"):
            for transfer, result in Transfers(server.base).each(source()):
                ended.append((transfer.taken, result_of(result).status))
        assert (b"aaaaa", 200) in ended and (b"bbbbb", 200) in ended


def test_caller_that_leaves_closes_what_is_in_progress() -> None:
    with RawServer(by_name) as server:
        transfers = Transfers(server.base, connections=4)
        for _ in transfers.each(Noted(f"{server.base}/{number}/3000000") for number in range(100)):
            break
        assert not transfers.busy
        assert [transfer.taken for transfer, _ in transfers.each([Noted(f"{server.base}/z/3")])] == [b"zzz"]
        # (the first four, those that follow them, and the last)
        assert len(server.requests) < 20


# Redirects

class Following(Noted):
    """A transfer that follows some redirects."""

    def __init__(self, url: str, most: int) -> None:
        super().__init__(url)
        self.most = most

    def redirect(self, response: Response) -> str | None:
        """Return the target, or None."""
        self.most -= 1
        return response.fields.get("Location") if self.most >= 0 else None


def test_redirects_are_followed_as_the_transfer_says() -> None:
    with RawServer(by_name) as other:
        def answers(request: Request) -> Answer:
            step = int(request.path[1:])
            return answer(b"x" * 100, "307 Temporary",
                          f"Location: {other.base}/end/2" if step == 3 else f"Location: {server.base}/{step + 1}")

        with RawServer(answers) as server:
            asked = [Following(f"{server.base}/1", 3), Following(f"{server.base}/1", 2)]
            first, second = (result_of(result) for _, result in Transfers(server.base).each(asked))
            assert (asked[0].taken, asked[0].begun, first.status) == (b"endend", [200], 200)
            assert (asked[1].taken, second.status, second.body) == (b"", 307, b"x" * 100)
            assert other.paths() == ["/end/2"]
