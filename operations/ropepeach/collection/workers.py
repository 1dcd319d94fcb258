"""Worker processes for named tasks, such as the sources of a collection.

A worker answers its parent's messages. It ends with its parent, even if the parent is killed. Its lines on standard
error begin with the name of the task. An error in a task is its answer, and does not end other tasks.
"""
from __future__ import annotations

import collections
import contextlib
import io
import multiprocessing
import multiprocessing.connection
import os
import resource
import signal
import sys
import threading
from collections.abc import Callable, Iterable
from typing import Any

from ropepeach.cli import output
from ropepeach.cli.statuses import Status
from ropepeach.cli.stops import Stopped
from ropepeach.faults import Fault, lines_of

# The limit for the end of a worker, in seconds.
ENDING = 10
# The answer of an ended worker.
ENDED = Fault("its process has ended")
# The function that answers the messages of a task.
Answering = Callable[[Any], Any]


def fault_with(lines: Iterable[str], status: int) -> Fault:
    """Return a fault with these lines and this exit status."""
    fault = Fault(*lines)
    fault.status = status
    return fault


class Prefixed(io.TextIOBase):
    """Standard error of a worker: the name of the task and a colon begin every line. It shows no progress bar."""

    def __init__(self, name: object) -> None:
        self.name, self.rest = name, ""

    def write(self, text: str) -> int:
        """Write the complete lines with the name; keep an incomplete line for later."""
        *lines, self.rest = (self.rest + text).split("\n")
        for line in lines:
            os.write(2, f"{self.name}: {line}\n".encode("utf-8", "backslashreplace"))
        return len(text)


class Workers:
    """Worker processes, which end with the `with` block.

    `begin(name)` runs in a worker, and returns the function that answers the messages of a task. All messages of a task
    go to the same worker. Every task has its own worker, or all tasks share `processes` workers. At most `jobs` workers
    are busy at once; the default is all.
    """

    def __init__(self, names: Iterable[Any], begin: Callable[[Any], Answering], jobs: int | None = None,
                 processes: int | None = None) -> None:
        self.names, self.begin = list(names), begin
        self.count = len(self.names) if processes is None else processes
        self.jobs = jobs or self.count
        # The workers by their links, the ended workers, and the worker of every begun task.
        self.processes: dict[Any, Any] = {}
        self.ended = set[Any]()
        self.owners: dict[Any, Any] = {}

    def __enter__(self) -> Workers:
        sys.stdout.flush()
        self.life, self.writer = os.pipe()
        context = multiprocessing.get_context("fork")
        # (a worker that is not ready misses signals)
        before = signal.pthread_sigmask(signal.SIG_BLOCK, [signal.SIGTERM])
        try:
            for _ in range(self.count):
                link, its_link = context.Pipe()
                process = context.Process(target=self.serve, args=(its_link,), daemon=True)
                self.processes[link] = process
                process.start()
                its_link.close()
        finally:
            signal.pthread_sigmask(signal.SIG_SETMASK, before)
        os.close(self.life)
        if self.count == len(self.names):
            self.owners = dict(zip(self.names, self.processes))
        return self

    def __exit__(self, kind: Any, *_: Any) -> None:
        for link, process in self.processes.items():
            link.close()
            if kind:
                process.terminate()
        for process in self.processes.values():
            process.join(ENDING)
            if process.is_alive():
                process.kill()
                process.join()
        os.close(self.writer)

    def serve(self, link: Any) -> None:
        """Answer messages in a worker until the parent ends."""
        signal.signal(signal.SIGINT, signal.SIG_IGN)
        os.close(self.writer)
        for other in self.processes:
            other.close()
        threading.Thread(target=lambda: (os.read(self.life, 1), os._exit(1)), daemon=True).start()
        # (every task has open files)
        limit = resource.getrlimit(resource.RLIMIT_NOFILE)[1]
        with contextlib.suppress(OSError, ValueError):
            resource.setrlimit(resource.RLIMIT_NOFILE, (limit, limit))
        # (a run that handles SIGTERM ends by Stopped, wherever the signal comes)
        with contextlib.suppress(Stopped):
            self.answer_messages(link)
            signal.pthread_sigmask(signal.SIG_BLOCK, [signal.SIGTERM])

    def answer_messages(self, link: Any) -> None:
        """Answer messages until the link is closed: the parent has ended."""
        tasks = dict[Any, Answering]()
        with contextlib.suppress(EOFError, ConnectionError):
            signal.pthread_sigmask(signal.SIG_UNBLOCK, [signal.SIGTERM])
            while True:
                name, message = link.recv()
                link.send(self.answer(tasks, name, message))

    def answer(self, tasks: dict[Any, Answering], name: Any, message: Any) -> Any:
        """Return the answer of a task in a worker, or its fault."""
        sys.stderr = Prefixed(name)  # type: ignore[assignment]
        output.current.source = str(name)
        try:
            if name not in tasks:
                tasks[name] = self.begin(name)
            return tasks[name](message)
        except Fault as fault:
            return fault_with(fault.lines(), fault.status)
        except OSError as fault:
            return fault_with(lines_of(fault), Status.UNUSABLE)

    def wait_for_answer(self, link: Any) -> Any:
        """Wait for the next answer of a worker, and return it."""
        try:
            return link.recv()
        except (EOFError, OSError):
            self.ended.add(link)
            return ENDED

    def answers_to(self, messages: dict[Any, Any] | None = None) -> dict[Any, Any]:
        """Send every task its message, or None to all tasks; return the answers by name, in the same order.

        The answer of a failed task is a fault. A new task goes to an idle worker.
        """
        due: dict[Any, Any] = dict.fromkeys(self.names) if messages is None else messages
        queues = {link: collections.deque[Any]() for link in self.processes}
        new, busy, answers = collections.deque[Any](), dict[Any, Any](), dict[Any, Any]()
        for name in due:
            (queues[self.owners[name]] if name in self.owners else new).append(name)

        def give() -> None:
            """Send messages to idle workers."""
            for link, queue in queues.items():
                if len(busy) < self.jobs and link not in busy and (queue or (new and link not in self.ended)):
                    name = busy[link] = queue.popleft() if queue else new.popleft()
                    self.owners[name] = link
                    with contextlib.suppress(OSError):
                        link.send((name, due[name]))

        give()
        while busy:
            for link in multiprocessing.connection.wait(list(busy)):
                name = busy.pop(link)
                answers[name] = self.wait_for_answer(link)
            give()
        return {name: answers.get(name, ENDED) for name in due}


def answers_of(names: Iterable[Any], ask: Callable[[Any], Any], jobs: int | None = None) -> dict[Any, Any]:
    """Return `ask(name)` or the fault of every task, by name, with one worker per task."""
    with Workers(names, lambda name: lambda _: ask(name), jobs) as workers:
        return workers.answers_to()


def failures(answers: dict[Any, Any]) -> dict[Any, Fault]:
    """Return the faults among the answers, by name."""
    return {name: answer for name, answer in answers.items() if isinstance(answer, Fault)}


def failure_lines(failed: dict[Any, Fault]) -> list[str]:
    """Return the lines of the faults, after the names of their tasks."""
    return [line for name, fault in failed.items()
            for line in (f"{name}: {fault.lines()[0]}", *fault.lines()[1:])]


def check_answers(answers: dict[Any, Any]) -> dict[Any, Any]:
    """Return the answers. If tasks failed, raise a fault with all their lines and the greatest exit status."""
    failed = failures(answers)
    if failed:
        raise fault_with(failure_lines(failed), max(fault.status for fault in failed.values()))
    return answers
