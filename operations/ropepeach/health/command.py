"""Reports the health of a source in one line and by the exit status, for a monitoring system or a timer.

It requests the Source Description, the Capability List, the Resource List and the Change List, as a mirror
does, and changes nothing. The line ends with performance data for monitoring systems. A `Closed` source stays
closed until its program is restarted. If URL is a Source Description of several sources, or the file of a
collection, each source has a line, and the worst status is the exit status.

  critical  no answer, `Closed`, unreadable lists, the last verification failed, or 98 % are used of the 50,000
            resources, the 50,000 changes, or, with --file, the blocks, the file system, or the longest free run,
            which the longest body of 30 days needs
  warning   90 % are used of one of these; the last change, publication or verification is older than allowed, or in
            the future; the file system has less room than the file lacks; the file cannot be examined
"""
from __future__ import annotations

import argparse
import os
import time
from collections.abc import Iterator, Sequence
from typing import NamedTuple

from ropepeach.cli import numbers, output
from ropepeach.cli.files import write_file
from ropepeach.cli.named import source_named
from ropepeach.cli.statuses import Health
from ropepeach.faults import Fault
from ropepeach.health.capacity import Quantity
from ropepeach.health.source import SourceHealth, Subject, examined
from ropepeach.resync.lists import Several
from ropepeach.resync.moments import AHEAD, moment_text

MS_PER_DAY, MS_PER_SECOND = 86_400_000, 1_000
# The clocks of two machines may differ by this many milliseconds.
SKEW = 60 * MS_PER_SECOND
AGE_UNITS = ((MS_PER_DAY, "day"), (3_600_000, "hour"), (60_000, "minute"), (MS_PER_SECOND, "second"))


def add_arguments(parser: argparse.ArgumentParser) -> None:
    """Add the arguments of the command."""
    parser.add_argument("url", metavar="URL",
                        help="the address of the source, such as http://127.0.0.1:8080, the name of a source here, "
                             "or the file of a collection")
    parser.add_argument("--changes-warning", type=numbers.number, metavar="N",
                        help="warn from this many changes kept (45,000)")
    parser.add_argument("--changes-critical", type=numbers.number, metavar="N",
                        help="critical from this many changes kept (49,000)")
    parser.add_argument("--change-age", type=numbers.positive, metavar="DAYS", help="warn if the last change is older")
    parser.add_argument("--publication-age", type=numbers.positive, metavar="DAYS",
                        help="warn if the last publication is older")
    parser.add_argument("--verification-age", type=numbers.positive, metavar="DAYS",
                        help="warn if the last verification is older")
    parser.add_argument("--file", metavar="FILE",
                        help="check the source's file too, its last verification and file system")
    parser.add_argument("--max-time", type=numbers.positive, default=10, metavar="SECONDS",
                        help="timeout of a response (10)")
    parser.add_argument("--patience", type=numbers.seconds, default=0, metavar="SECONDS",
                        help="how long to retry a source that does not answer (0)")
    parser.add_argument("--certificate", metavar="FILE", help="client certificate and key, in PEM")
    parser.add_argument("--prometheus", metavar="FILE",
                        help="write the figures to this file, for the textfile collector")


class Trouble(NamedTuple):
    """A problem of a source, and its severity."""

    status: Health
    words: str


class Age(NamedTuple):
    """The moment of an event in milliseconds (0: it never happened), its age at `now`, the limit of the age in days,
    and the moment from which the age of an event counts that never happened.
    """

    event: str
    moment: int
    now: int
    limit: float | None
    since: int = 0

    def text(self) -> str:
        """Return the age as text."""
        if not self.moment:
            return f"last {self.event} never"
        age = self.now - self.moment
        size, unit = next((unit for unit in AGE_UNITS if age >= unit[0]), AGE_UNITS[-1])
        count = max(0, age // size)
        return f"last {self.event} {count:,} {unit}{'s' * (count != 1)} ago"

    def troubles(self) -> Iterator[Trouble]:
        """Yield the problems of this age."""
        if self.limit is not None and self.now - (self.moment or self.since) > self.limit * MS_PER_DAY:
            yield Trouble(Health.WARNING, f"no {self.event} within {24 * self.limit:g} hours")
        ahead = self.moment - self.now
        if ahead > SKEW:
            refused = (f"; mirrors refuse the source until {moment_text(self.moment - AHEAD)}" if ahead > AHEAD else "")
            yield Trouble(Health.WARNING, f"the last {self.event} is {ahead // MS_PER_SECOND:,} seconds in the "
                                          f"future: a clock is or was wrong{refused}")

    def figure(self) -> str:
        """Return the performance data of this age, or an empty text without an event."""
        if not self.moment:
            return ""
        limit = f";{self.limit * MS_PER_DAY / MS_PER_SECOND:g}" if self.limit else ""
        return f"{self.event}_age={(self.now - self.moment) // MS_PER_SECOND}s{limit}"


def ages_of(finding: SourceHealth, arguments: argparse.Namespace) -> list[Age]:
    """Return the ages of the last change, publication and verification, as far as they are known. The age of the
    verification of a source that was never verified counts from its earliest change.
    """
    now, ages = time.time_ns() // 1_000_000, list[Age]()
    if finding.is_up:
        ages = [Age("change", finding.changed, now, arguments.change_age),
                Age("publication", finding.published, now, arguments.publication_age)]
    if finding.unreserved is not None:
        ages.append(Age("verification", finding.verification.moment if finding.verification else 0, now,
                        arguments.verification_age, finding.contents.earliest if finding.contents else 0))
    return ages


def quantities_of(finding: SourceHealth, arguments: argparse.Namespace) -> list[Quantity]:
    """Return the bounded quantities of a source. Options have the limits of the changes."""
    limits = {"warning": arguments.changes_warning, "critical": arguments.changes_critical}
    limits = {name: value for name, value in limits.items() if value is not None}
    return [quantity._replace(**limits) if quantity.name == "changes" else quantity
            for quantity in finding.quantities()]


def troubles(finding: SourceHealth, arguments: argparse.Namespace, ages: Sequence[Age]) -> Iterator[Trouble]:
    """Yield the problems of a source."""
    if not finding.is_up:
        yield Trouble(Health.CRITICAL, "Closed until the program is restarted" if finding.is_closed else finding.fault)
    for quantity in quantities_of(finding, arguments):
        if quantity.used >= quantity.warning:
            is_near = quantity.used >= quantity.critical
            yield Trouble(Health.CRITICAL if is_near else Health.WARNING,
                          f"{quantity.refusal} {'is near' if is_near else 'comes closer'} ({quantity.text}): "
                          f"{quantity.remedy}")
    yield from troubles_of_file(finding)
    for age in ages:
        yield from age.troubles()


def troubles_of_file(finding: SourceHealth) -> Iterator[Trouble]:
    """Yield the problems of the file of a source."""
    file, verification = finding.subject.file, finding.verification
    if finding.file_fault:
        yield Trouble(Health.WARNING, finding.file_fault)
    if verification and not verification.is_good:
        yield Trouble(Health.CRITICAL, f"the last verification failed, {verification.fault} (ropepeach fill --repair, "
                                       "then verify again)")
    if finding.unreserved and finding.free < finding.unreserved:
        yield Trouble(Health.WARNING,
                      f"the file system has {finding.free:,} bytes free, and {file} lacks {finding.unreserved:,}: "
                      f"make room, then fallocate --length {finding.size} {file}")


def state_text(finding: SourceHealth, ages: Sequence[Age]) -> str:
    """Return the state of a running source as text."""
    facts = [quantity.text for quantity in finding.quantities() if quantity.name in ("changes", "resources", "blocks")]
    facts += [age.text() for age in ages]
    if finding.unreserved:
        facts.append(f"{finding.unreserved:,} bytes of the file not reserved")
    return ", ".join(facts)


def figures_of(finding: SourceHealth, arguments: argparse.Namespace, ages: Sequence[Age]) -> str:
    """Return the performance data of a line, in the form of monitoring plugins."""
    figures = [f"{quantity.name}={quantity.used};{quantity.warning};{quantity.critical};0;{quantity.most}"
               for quantity in quantities_of(finding, arguments)]
    figures += filter(None, (age.figure() for age in ages))
    if finding.unreserved is not None:
        figures.append(f"unreserved={finding.unreserved}B")
    return " ".join([*figures, f"time={finding.seconds:.3f}s"])


class Verdict(NamedTuple):
    """The status of a source, its ages, the texts of its problems, and its state as text, if it is up."""

    status: Health
    ages: list[Age]
    words: list[str]
    state: list[str]


def verdict_on(finding: SourceHealth, arguments: argparse.Namespace) -> Verdict:
    """Judge the state of a source."""
    ages = ages_of(finding, arguments)
    found = list(troubles(finding, arguments, ages))
    # (the figures follow a bar)
    return Verdict(max((trouble.status for trouble in found), default=Health.OK), ages,
                   [trouble.words.replace("|", "/") for trouble in found],
                   [state_text(finding, ages)] if finding.is_up else [])


def reported(finding: SourceHealth, arguments: argparse.Namespace) -> Health:
    """Print the line of a source; return its status."""
    status, ages, words, state = verdict_on(finding, arguments)
    figures = f" | {figures_of(finding, arguments, ages)}" if finding.is_up else ""
    output.result(f"{status.name}: {finding.subject.url}: {'; '.join([*words, *state])}{figures}",
                  source=finding.subject.url, health=status.name, troubles=words, figures=measured(finding, status))
    return status


def metrics_of(findings: Sequence[tuple[SourceHealth, Health]]) -> str:
    """Return the figures of all sources in the text format of Prometheus."""
    figures: dict[str, list[str]] = {}
    for finding, status in findings:
        source = finding.subject.url.replace("\\", r"\\").replace('"', r"\"").replace("\n", r"\n")
        for name, value in measured(finding, status).items():
            line = f'ropepeach_{name}{{source="{source}"}} {float(value):.15g}\n'
            figures.setdefault(name, []).append(line)
    return "".join(f"# TYPE ropepeach_{name} gauge\n{''.join(lines)}" for name, lines in figures.items())


def measured(finding: SourceHealth, status: Health) -> dict[str, float]:
    """Return the figures of a source, by name."""
    figures: dict[str, float] = {"up": finding.is_up, "closed": finding.is_closed, "status": status,
                                 "check_timestamp_seconds": round(finding.begun, 3),
                                 "answer_seconds": round(finding.seconds, 3)}
    if finding.is_up:
        figures |= {"last_change_timestamp_seconds": finding.changed / MS_PER_SECOND,
                    "last_publication_timestamp_seconds": finding.published / MS_PER_SECOND}
    for quantity in finding.quantities():
        figures |= {f"{quantity.name}_{quantity.word}": quantity.used, f"{quantity.name}_most": quantity.most}
    if finding.unreserved is not None:
        figures["unreserved_bytes"] = finding.unreserved
    if finding.verification:
        figures |= {"verified": finding.verification.is_good,
                    "last_verification_timestamp_seconds": finding.verification.moment / MS_PER_SECOND}
    return figures


def all_found(arguments: argparse.Namespace) -> list[SourceHealth]:
    """Examine the source, or all sources of a collection."""
    if arguments.url.endswith(".toml"):
        from ropepeach.collection.settings import CollectionSettings

        members = CollectionSettings(arguments.url).members.values()
        return side_by_side([Subject(member.address, member.file if os.path.lexists(member.file) else "")
                             for member in members], arguments)
    here = source_named(arguments.url)
    subject = Subject(here.address, str(here.file)) if here else Subject(arguments.url)
    try:
        return [examined(subject._replace(file=arguments.file or subject.file), arguments)]
    except Several as several:
        return side_by_side([Subject(base) for base in several.bases], arguments)


def side_by_side(subjects: Sequence[Subject], arguments: argparse.Namespace) -> list[SourceHealth]:
    """Examine several sources at once."""
    from ropepeach.collection.workers import answers_of

    answers = answers_of(subjects, lambda subject: examined(subject, arguments))
    return [SourceHealth(subject, time.time(), fault=" ".join(answer.lines())) if isinstance(answer, Fault) else answer
            for subject, answer in answers.items()]


def run(arguments: argparse.Namespace) -> int:
    """Print a line for every source; return the worst status."""
    findings = [(finding, reported(finding, arguments)) for finding in all_found(arguments)]
    if arguments.prometheus:
        write_file(arguments.prometheus, metrics_of(findings))
    return max(status for _, status in findings)
