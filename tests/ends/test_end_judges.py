"""Tests of the judges of failing reads and writes: they reject wrong programs.

The wrong script programs change the outcome of a right program; the wrong servers are changed models.
"""
import dataclasses
import itertools
from collections.abc import Callable
from functools import cache

import pytest

from tests.ends import ends_of_requests, ends_of_scripts
from tests.ends.ends_of_requests import BEFORE, LOOK, READ_FAILS, RESET_BEFORE, SENDS, SEND_FAILS
from tests.ends.ends_of_requests import SEND_FAILS_ONCE, WAYS, Model, Request, cuts_of
from tests.ends.ends_of_scripts import ALL_READ, BASE, BY_ITS_READER, LIMIT, READ, READS, SIZE, WRITE, Script
from tests.ends.ends_of_scripts import Case, Outcome, done_of, wanted_of
from tests.reading import crash_model, line_judge
from tests.reading.crash_model import State
from tests.reading.front_model import Source
from tests.reading.request_judge import CONTINUE, END

Change = Callable[[Case, Outcome, int], Outcome]
SCRIPTS = ["one_resource", "three_changes", "put_again_after_delete"]
# The sampling rates: one case of a script, and one cut of a request, of this many.
EACH, CUT = 13, 3


def right(case: Case) -> tuple[Outcome, int]:
    """Return the outcome of a right program, and the number of lines it executes."""
    script, wanted = case.script, wanted_of(case)
    done = done_of(script, wanted, script.states[wanted.least])
    assert done is not None
    outcome = Outcome(wanted.status, wanted.output, wanted.messages, script.states[done], script.later(done)[1])
    return outcome, wanted.least


def after_part(case: Case, done: int) -> tuple[bytes, State]:
    """Return the answer to the received part of a line, and the state after it."""
    script = case.script
    part = script.data[script.ends[done - 1] if done else 0 : case.at]
    source = Source(script.states[done], SIZE)
    return line_judge.Judge(source).answer(part) if part else b"", source.state


# Wrong programs: functions of a case, a right program's outcome, and the number of lines that it executed.
def an_answer_is_left_out(case: Case, outcome: Outcome, done: int) -> Outcome:
    """The program leaves out the last answer that was due."""
    return outcome._replace(output=b"".join(case.script.answers[: max(done - 1, 0)]))


def answers_are_held_back(case: Case, outcome: Outcome, done: int) -> Outcome:
    """The program sends no answer."""
    return outcome._replace(output=b"")


def a_part_of_a_line_is_done(case: Case, outcome: Outcome, done: int) -> Outcome:
    """The program executes a line that it received in part."""
    return outcome._replace(state=after_part(case, done)[1])


def a_part_of_a_line_is_answered(case: Case, outcome: Outcome, done: int) -> Outcome:
    """The program answers a line that it received in part."""
    return outcome._replace(output=outcome.output + after_part(case, done)[0])


def a_line_that_did_not_come_is_done(case: Case, outcome: Outcome, done: int) -> Outcome:
    """The program executes one line more than it received."""
    return outcome._replace(state=case.script.states[min(done + 1, len(case.script.lines))])


def the_last_line_is_not_kept(case: Case, outcome: Outcome, done: int) -> Outcome:
    """The file lacks the last executed line."""
    return outcome._replace(state=case.script.states[max(done - 1, 0)])


def a_fault_is_the_end(case: Case, outcome: Outcome, done: int) -> Outcome:
    """The program ends after a fault as it does at the end of its input."""
    return outcome._replace(status=0, messages=b"")


def reading_is_told_as_writing(case: Case, outcome: Outcome, done: int) -> Outcome:
    """A failed read is reported as a failed write."""
    return outcome._replace(messages=WRITE)


def writing_is_told_as_reading(case: Case, outcome: Outcome, done: int) -> Outcome:
    """A failed write is reported as a failed read."""
    return outcome._replace(messages=READ)


def a_signal_ends_it(case: Case, outcome: Outcome, done: int) -> Outcome:
    """A signal ends the program."""
    return outcome._replace(status=-13, messages=b"")


def a_fault_uses_up_a_moment(case: Case, outcome: Outcome, done: int) -> Outcome:
    """A fault uses up a moment, as a command does."""
    assert outcome.state
    return outcome._replace(state=dataclasses.replace(outcome.state, last=outcome.state.last + 1))


def the_file_is_none(case: Case, outcome: Outcome, done: int) -> Outcome:
    """The file is no source any more."""
    return outcome._replace(state=None, later=None)


def a_body_is_damaged(case: Case, outcome: Outcome, done: int) -> Outcome:
    """A body on the file is damaged."""
    assert outcome.later
    return outcome._replace(later=outcome.later.replace(b"verified 1", b"damaged a\nverified 0"))


def a_later_run_does_not_go_on(case: Case, outcome: Outcome, done: int) -> Outcome:
    """A later run stops halfway."""
    assert outcome.later
    return outcome._replace(later=outcome.later[: len(outcome.later) // 2])


def lines_go_on_behind_a_failed_write(case: Case, outcome: Outcome, done: int) -> Outcome:
    """The program executes all lines although a write failed."""
    return outcome._replace(state=case.script.states[-1])


def what_is_not_taken_is_left_out(case: Case, outcome: Outcome, done: int) -> Outcome:
    """The program drops a byte that the client did not take, and continues its output."""
    return outcome._replace(output=case.script.output[: case.at] + case.script.output[case.at + 1 :])


def what_was_written_is_written_again(case: Case, outcome: Outcome, done: int) -> Outcome:
    """The program writes its output twice."""
    return outcome._replace(output=outcome.output + outcome.output)


OF_BOTH = [the_last_line_is_not_kept, a_fault_is_the_end, a_fault_uses_up_a_moment, the_file_is_none]
OF_BOTH += [a_body_is_damaged, a_later_run_does_not_go_on]
OF_READS = [an_answer_is_left_out, answers_are_held_back, a_part_of_a_line_is_done, a_part_of_a_line_is_answered]
OF_READS += [a_line_that_did_not_come_is_done, reading_is_told_as_writing]
OF_WRITES = [lines_go_on_behind_a_failed_write, what_is_not_taken_is_left_out, writing_is_told_as_reading]
OF_WRITES += [what_was_written_is_written_again, a_signal_ends_it]
# The case in which a wrong program equals a right one: if it had read all lines, it may execute all.
UNTOLD: dict[Change, str] = {lines_go_on_behind_a_failed_write: ALL_READ}


def is_noticed(wrong: Change, cases: list[Case]) -> bool:
    """Return whether the checks reject a wrong program in every way that can show its bug."""
    ways = {case.way for case in cases} - {UNTOLD.get(wrong)}
    noticed = set[str]()
    for case in cases:
        if case.way in ways - noticed and ends_of_scripts.faults(case, wrong(case, *right(case))):
            noticed.add(case.way)
    return noticed == ways


def sample(script: Script) -> list[Case]:
    """Return a sample of the cases of every way."""
    by_way = itertools.groupby(ends_of_scripts.cases_of(script), lambda case: case.way)
    return [case for way, those in by_way
            for case in itertools.islice(those, 0, None, 1 if way == BY_ITS_READER else EACH)]


@cache
def cases() -> list[Case]:
    """Return a sample of the cases of all scripts."""
    return [case for name in SCRIPTS for case in sample(Script(name))]


@pytest.mark.parametrize("row", SCRIPTS)
def test_the_judge_accepts_a_right_program(row: str) -> None:
    assert not any(ends_of_scripts.faults(case, right(case)[0]) for case in sample(Script(row)))


@pytest.mark.parametrize("change", OF_BOTH + OF_READS)
def test_the_judge_rejects_a_wrong_program_whose_reads_fail(change: Change) -> None:
    assert is_noticed(change, [case for case in cases() if case.way in READS])


@pytest.mark.parametrize("change", OF_BOTH + OF_WRITES)
def test_the_judge_rejects_a_wrong_program_whose_writes_fail(change: Change) -> None:
    assert is_noticed(change, [case for case in cases() if case.way not in READS])


class CutBodyIsDone(Model):
    """The server executes a PUT with an incomplete body."""

    def meet(self, way: str, sent: bytes, at: int) -> bytes | None:
        """Execute a PUT with the part of its body that came."""
        end = END.search(sent)
        part, head = sent[:at], end.end() if end else len(sent)
        got = super().meet(way, sent, at)
        if way not in SENDS and at > head and b"Content-Length: 3" in sent and not self.is_read(part):
            self.source.put("c", "a/b", at - head, part[head:], 0)
        return got


class NothingIsDoneUnanswered(Model):
    """The server reverts a command whose response it cannot send."""

    def meet(self, way: str, sent: bytes, at: int) -> bytes | None:
        """Revert the command."""
        before = self.source.state
        got = super().meet(way, sent, at)
        if way != READ_FAILS:
            self.source.become(before)
        return got


class WordIsNotNeeded(Model):
    """The server executes a PUT whose `100 Continue` it could not send."""

    def meet(self, way: str, sent: bytes, at: int) -> bytes | None:
        """Execute a PUT although its `100 Continue` failed."""
        is_done = way in (RESET_BEFORE, SEND_FAILS) and self.is_read(sent[:at] if way == RESET_BEFORE else sent)
        got = super().meet("none" if is_done else way, sent, at)
        return self.peeked(LOOK) if way == RESET_BEFORE and is_done else got


class WordIsTriedAgain(Model):
    """The server sends `100 Continue` again and executes the PUT."""

    def meet(self, way: str, sent: bytes, at: int) -> bytes | None:
        """Execute a PUT although its `100 Continue` failed once."""
        return self.answer(sent) if way == SEND_FAILS_ONCE else super().meet(way, sent, at)


class WordIsHeldBack(Model):
    """The server sends `100 Continue` only with the response."""

    def meet(self, way: str, sent: bytes, at: int) -> bytes | None:
        """Leave out `100 Continue` if no response follows it."""
        got = super().meet(way, sent, at)
        return b"" if got == CONTINUE else got


class FailedReadIsAnswered(Model):
    """The server takes a failed read for the end of the request."""

    def meet(self, way: str, sent: bytes, at: int) -> bytes | None:
        """Answer the bytes that came before a failed read."""
        response = self.peeked(sent[:at])
        got = super().meet(way, sent, at)
        return response if way == READ_FAILS else got


class ResponseGoesOn(Model):
    """The server sends the unsent part again."""

    def meet(self, way: str, sent: bytes, at: int) -> bytes | None:
        """Send the whole response although a write failed."""
        response = self.peeked(sent)
        got = super().meet(way, sent, at)
        return response if way == SEND_FAILS else got


class DoneAgain(Model):
    """The server repeats a command whose response it could not send."""

    def meet(self, way: str, sent: bytes, at: int) -> bytes | None:
        """Execute a request twice if its response was not sent."""
        got = super().meet(way, sent, at)
        if way == SEND_FAILS and at < len(self.peeked(sent)):
            self.answer(sent)
        return got


class NextIsNotAnswered(Model):
    """The server ends with the failed connection."""

    def look(self) -> bytes:
        """Return no response to the next request."""
        return b""


class NextGetsTheRest(Model):
    """The next client receives the unsent part of a response."""

    rest = b""

    def meet(self, way: str, sent: bytes, at: int) -> bytes | None:
        """Keep the unsent part of a response."""
        self.rest = self.peeked(sent)[at:] if way == SEND_FAILS else b""
        return super().meet(way, sent, at)

    def look(self) -> bytes:
        """Return the unsent part followed by the next response."""
        return self.rest + super().look()


class SourceIsClosed(Model):
    """A fault of a client closes the source."""

    def look(self) -> bytes:
        """Return the refusal of a closed source."""
        return b"HTTP/1.1 503 Service Unavailable\r\n"


class OneBeforeIsDropped(Model):
    """The server drops the client that it serves while another one leaves."""

    def meet(self, way: str, sent: bytes, at: int) -> bytes | None:
        """Return no response to the client that is served meanwhile."""
        got = super().meet(way, sent, at)
        return b"" if way in BEFORE else got


WRONG = [CutBodyIsDone, NothingIsDoneUnanswered, WordIsNotNeeded, WordIsTriedAgain, WordIsHeldBack]
WRONG += [FailedReadIsAnswered, ResponseGoesOn, DoneAgain, NextIsNotAnswered, NextGetsTheRest, SourceIsClosed]
WRONG += [OneBeforeIsDropped]


@cache
def example() -> list[Request]:
    """Return the requests with the state before them."""
    model, found = Model(crash_model.State(BASE, LIMIT)), []
    for sent, response in ends_of_requests.exchanges():
        found.append(Request(sent, response, model.source.state, b""))
        model.answer(sent)
    return found


def has_faults(wrong: type[Model]) -> bool:
    """Return whether the checks find faults in a server of this kind."""
    tried = ((request, cuts_of(request, way, CUT)) for request in example() for way in WAYS)
    return any(ends_of_requests.faults(wrong(request.state), Model(request.state), request.sent, cuts)
               for request, cuts in tried)


def test_the_judge_accepts_a_right_server() -> None:
    assert not has_faults(Model)


@pytest.mark.parametrize("wrong", WRONG)
def test_the_judge_rejects_a_wrong_server(wrong: type[Model]) -> None:
    assert has_faults(wrong)
