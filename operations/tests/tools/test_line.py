"""Test the command line of `ropepeach`: help, versions, options, output, exit statuses, completion."""
from __future__ import annotations

import contextlib
import functools
import io
import multiprocessing
import os
import re
import shlex
import shutil
import signal
import subprocess
import time
from pathlib import Path
from unittest import mock

import pytest

import ropepeach
from operations.tests import PYTHON
from operations.tests.tools import COMMAND, lists_server, shells
from operations.tests.tools.line_runs import FIELDS, completed, here, object_of, on_a_terminal, status_and, surroundings
from operations.tests.tools.command_runs import page_of, run_command, status_of
from operations.tests.tools.running import SECONDS, Server, written
from ropepeach.cli import output, parser
from ropepeach.cli.statuses import Health, Status
from ropepeach.cli.subcommands import GROUPS, SUBCOMMANDS, TABLE
from ropepeach.http import limits
from tests.program import ROOT, TOOLS

# The most columns of a line of help, on a terminal of this width.
NARROW, WIDE = 60, 80
# Words that are not commands.
NO_COMMANDS: list[list[str]] = [["help", "nothing"], ["help", "fill", "mirror"], ["nothing"], ["fil"], ["--json"],
                                ["--nothing"], ["--", "fill"], ["--json", "nothing"]]
# Wrong words, and the right ones.
MEANT = {"mirro": "mirror", "helth": "health", "help gorw": "grow", "fill --dryrun a b": "--dry-run",
         "look --putt=1 a": "--put", "--json restor": "restore"}
# Lines after completion by a key, and words that a key lists below the line.
COMPLETED = {"ropepeach mi": "ropepeach mirror ", "ropepeach help gr": "ropepeach help grow ",
             "ropepeach mirror --any": "ropepeach mirror --any-source ",
             "ropepeach fill dep": "ropepeach fill depositors/", "ropepeach grow li": "ropepeach grow list.toml ",
             "ropepeach mirror --require sha-5": "ropepeach mirror --require sha-512 ",
             "ropepeach nothing": "ropepeach nothing", "ropepeach fill --exc": "ropepeach fill --exclude "}
LISTED = {"ropepeach ": ["mirror", "takeover", "help"], "ropepeach mirror --max-d": ["--max-delete", "--max-duration"]}
# The beginning of a colour sequence.
COLOUR = "\x1b["
NO_COLOUR: list[dict[str, str]] = [{}, {"NO_COLOR": "1"}]
# Bytes of a folder, and the bandwidth limit in bytes per second: sending takes at least three seconds.
BYTES, RATE = 300_000, 100_000


def test_the_version_is_that_of_the_version_file() -> None:
    """`--version`, `version` and the User-Agent of requests have it."""
    version = (ROOT / "VERSION").read_text().strip()
    assert ropepeach.__version__ == version
    for word in ("--version", "version"):
        done = run_command(word)
        assert (done.returncode, done.stdout, done.stderr) == (0, f"ropepeach {version}\n", ""), word
    with lists_server.serving(lambda _: (404, "text/plain", b"NotFound\n")) as server:
        run_command("health", server.url)
    agents = {request.fields["user-agent"] for request in server.requests}
    assert agents == {f"ropepeach/{version}"}


@pytest.mark.parametrize("name", SUBCOMMANDS)
def test_help_of_a_command_is_its_help_option(name: str) -> None:
    """`help COMMAND` prints the text of `COMMAND --help`."""
    done, other = here("help", name), here(name, "--help")
    assert (done.returncode, other.returncode) == (0, 0)
    assert done.stdout == other.stdout
    assert done.stdout.startswith(f"usage: ropepeach {name} ")


def test_help_names_all_commands() -> None:
    """`help` prints the text of `--help`."""
    whole = here("help").stdout
    assert whole == here("--help").stdout
    assert all(f"\n  {name}" in whole for name in SUBCOMMANDS), whole


@pytest.mark.parametrize("words", NO_COMMANDS, ids=str)
def test_words_that_name_no_command_have_status_2(words: list[str]) -> None:
    """The message names `--help`."""
    status_of(here(*words), 2, "ropepeach: error: ", "Try 'ropepeach --help'.")


@pytest.mark.parametrize("line, word", MEANT.items())
def test_a_wrong_word_gets_a_suggestion(line: str, word: str) -> None:
    """The line names the most similar command or option."""
    status_of(here(*line.split()), 2, f"; did you mean {word}?\n")


def test_no_words_print_the_overview() -> None:
    """Every command is in one part of it, and the status is that of wrong arguments."""
    assert sorted(" ".join(GROUPS.values()).split()) == sorted(SUBCOMMANDS)
    done = here()
    assert (done.returncode, done.stdout) == (2, "") and done.stderr == here("--help").stdout
    assert all(f"\nto {group}:\n" in done.stderr for group in GROUPS), done.stderr


@pytest.mark.parametrize("words", [["--json"], ["-q"], ["--json", "-v"]], ids=str)
def test_output_options_may_come_first(words: list[str], room: Path) -> None:
    """They have the effect of options behind the command."""
    written(room / "folder", {"a": b"1"})
    first = here(*words, "size", str(room / "folder"))
    assert first.stdout and (first.returncode, first.stdout) == (0, here("size", *words, str(room / "folder")).stdout)


def test_help_needs_no_package_of_debian() -> None:
    """The parsers of all commands are made without libcurl and tqdm."""
    script = ("import sys; sys.modules.update(pycurl=None, tqdm=None, defusedxml=None)\n"
              "from ropepeach.cli import parser, subcommands\n"
              "for subcommand in subcommands.TABLE: print(parser.parser_of(subcommand).prog)")
    done = subprocess.run([PYTHON, "-c", script], capture_output=True, text=True, timeout=SECONDS, cwd=TOOLS)
    assert done.stdout.split("\n")[:-1] == [f"ropepeach {name}" for name in SUBCOMMANDS], done.stderr


@pytest.mark.parametrize("line", [
    "fill none http://127.0.0.1:1", "fill . none.toml", "fill . http://127.0.0.1:1 --types none", "size none",
    "fill . http://127.0.0.1:1 --certificate none", "size . --types none", "check none", "mirror --list none",
    "mirror http://127.0.0.1:1 m --certificate none", "look none", "look --log none", "collection none.toml",
    "collection none.toml --into m", "grow none.toml", "health none.toml", "takeover none 10.0.0.1"])
def test_a_missing_file_or_folder_has_status_3(line: str, room: Path) -> None:
    """One line names the file, and says that it is missing."""
    assert not os.listdir(room)
    done = here(*line.split())
    assert (done.returncode, done.stdout) == (3, ""), done
    assert re.search("none.*(No such file or directory|there is no such file)", done.stderr), done
    assert done.stderr.count("\n") == 1 and "Errno" not in done.stderr, done


@pytest.mark.parametrize("columns, limit", [(NARROW, NARROW), (200, WIDE)])
@pytest.mark.parametrize("words", [[], *([name] for name in SUBCOMMANDS)], ids=str)
def test_lines_of_help_fit_the_terminal(words: list[str], columns: int, limit: int) -> None:
    """On a wide terminal a line has at most 80 columns."""
    with mock.patch.dict(os.environ, COLUMNS=str(columns)):
        lines = here(*words, "--help").stdout.splitlines()
    assert len(lines) > 10, lines
    assert len(max(lines, key=len)) <= limit, max(lines, key=len)


@pytest.mark.parametrize("name", SUBCOMMANDS)
def test_options_are_not_abbreviated(name: str) -> None:
    """A wrong option prints a line with the error, and a line that names --help."""
    actions = parser.parser_of(SUBCOMMANDS[name])._actions
    options = {option for action in actions for option in action.option_strings if option.startswith("--")}
    shortened = {option[:-1] for option in options} - options
    for word in [*sorted(shortened), "--nothing", "-x"]:
        done = here(name, word, "a", "a")
        assert (done.returncode, done.stdout) == (SUBCOMMANDS[name].misused, ""), word
        first, second = done.stderr.splitlines()
        assert first.startswith(f"ropepeach {name}: error: "), word
        assert second == f"Try 'ropepeach {name} --help'.", word


@pytest.mark.parametrize("name", SUBCOMMANDS)
def test_a_manual_page_has_the_options_and_statuses(name: str) -> None:
    """The page's name, synopsis and exit statuses are those of the command's declaration."""
    page_of(name)


def test_the_manual_has_a_page_for_every_command() -> None:
    """ropepeach(1) has the options of all commands and the JSON object."""
    found = {path.stem for path in (ROOT / "operations/install").glob("ropepeach-*.1")}
    assert found == {f"ropepeach-{name}" for name in SUBCOMMANDS}
    page, output = (ROOT / "operations/install/ropepeach.1").read_text(), run_command("look", "--help").stdout
    for short, option in (("v", "verbose"), ("q", "quiet")):
        assert f".It Fl {short} , Fl -{option}\n" in page and f"  -{short}, --{option} " in output, option
    assert ".It Fl -json\n" in page
    assert all(f".It Va {field}\n" in page for field in FIELDS)


def test_commands_declare_their_statuses() -> None:
    """The statuses of success, of an interrupt and of misuse have the same meaning in all commands; those of `health`
    follow monitoring plugins.
    """
    assert len(SUBCOMMANDS) == len(TABLE), "two declarations of one name"
    for name, declared in SUBCOMMANDS.items():
        assert {0, Status.INTERRUPTED, declared.misused} <= set(declared.statuses), f"{name}: {declared.statuses}"
    plugins = [SUBCOMMANDS[name].misused for name in ("health", "status")]
    assert (list(Health), plugins) == ([0, 1, 2, 3], [3, 3]), "the statuses of monitoring plugins"


@pytest.mark.parametrize("name", SUBCOMMANDS)
def test_examples_of_help_are_valid(name: str) -> None:
    """Examples end the text of --help, and the parser accepts them."""
    declared = SUBCOMMANDS[name]
    printed = " ".join(here(name, "--help").stdout.partition("examples:")[2].split())
    assert declared.examples and printed == " ".join(f"ropepeach {name} {example}" for example in declared.examples)
    for example in declared.examples:
        with contextlib.redirect_stderr(io.StringIO()) as complaint:
            try:
                parser.parser_of(declared).parse_args(shlex.split(example))
            except SystemExit:
                pytest.fail(f"{example}: {complaint.getvalue()}")


def test_json_prints_one_object(program: str, room: Path) -> None:
    """Standard error has the messages of the object."""
    with surroundings(room, program) as words:
        assert set(words) == set(SUBCOMMANDS), "a command is not tried"
        for name in SUBCOMMANDS:
            shutil.rmtree("m", ignore_errors=True)
            done = run_command(name, *words[name], "--json")
            found = object_of(name, done)
            texts = [message["text"] for message in found["messages"]]
            texts_written = [line.removeprefix(f"ropepeach {name}: ") for line in done.stderr.splitlines()]
            assert texts_written == texts, name
            assert found["results"] or found["status"], f"{name}: {done}"


@pytest.mark.parametrize("name, status, words", [
    ("look", 3, ["none"]), ("mirror", 2, ["ftp://a", "m"]), ("health", 3, ["ftp://a"]),
    ("health", 2, ["http://127.0.0.1:1"]), ("size", 3, ["none"]), ("grow", 3, ["none"]),
    ("mirror", 1, ["http://127.0.0.1:1", "m", "--patience", "0"])], ids=str)
def test_json_prints_an_object_of_a_failed_run(name: str, status: int, words: list[str], room: Path) -> None:
    """The object has the exit status, and its error names the cause."""
    found = object_of(name, status_and(run_command(name, *words, "--json"), status))
    errors = [message["text"] for message in found["messages"] if message["level"] == "error"]
    assert bool(errors) != bool(found["results"]), found


def test_a_full_standard_output_has_status_3() -> None:
    """One line reports this."""
    with open("/dev/full", "w", encoding="utf-8") as full:
        words = [*COMMAND, "site", "https://a.example", "--json"]
        done = subprocess.run(words, stdout=full, stderr=subprocess.PIPE, text=True, timeout=SECONDS)
    assert (done.returncode, done.stderr.count("\n")) == (3, 1), done


def test_json_has_the_messages_of_all_processes(room: Path) -> None:
    """A message has the name of its source."""
    text = 'address = "https://a.example"\n'
    for number in (1, 2):
        text += (f'[source.s{number}]\naddress = "http://127.0.0.1:{number}"\n'
                 f'file = "/var/lib/ropepeach/s{number}.disk"\nbase = "https://a.example/s{number}"\n')
    Path("collection.toml").write_text(text)
    done = run_command("collection", "collection.toml", "--patience", "0.3", "--json")
    found = object_of("collection", status_and(done, 1))
    sources = {message.get("source") for message in found["messages"] if message["level"] == "message"}
    assert sources == {"s1", "s2"}, f"{found['messages']}"


def test_verbose_adds_requests_and_quiet_keeps_errors(program: str, room: Path) -> None:
    """Results are on standard output, messages on standard error."""
    with surroundings(room, program) as words:
        size = run_command("size", *words["size"], "--quiet")
        assert size.stdout.strip().isdigit() and not size.stderr, size
        assert run_command("size", *words["size"]).stdout == size.stdout, "a result that is other without -q"
        usual, loud = run_command("mirror", *words["mirror"]), run_command("mirror", *words["mirror"], "-v")
        assert "GET http" not in usual.stderr and loud.stderr.count("GET http") > 2, loud.stderr
        assert loud.stdout.count("\n") == usual.stdout.count("\n") == 1, loud.stdout
        failed = run_command("mirror", "http://127.0.0.1:1", "n", "--patience", "0", "-q")
        assert failed.returncode == 1 and failed.stderr.count("\n") == 1 and not failed.stdout, failed
        status_of(run_command("look", "a.disk", "-v", "-q"), 2, "not allowed with")


def test_nothing_is_coloured(program: str, room: Path) -> None:
    """The runs are on a terminal, with and without NO_COLOR."""
    with surroundings(room, program) as words:
        for settings in NO_COLOUR:
            for name in ("look", "mirror", "nothing"):
                output = on_a_terminal([name, *words.get(name, [])], settings)
                assert output and COLOUR not in output.replace("\x1b[A", ""), f"{name}: {output!r}"


def test_bwlimit_bounds_the_bytes_per_second(program: str, room: Path) -> None:
    """--bwlimit limits the bytes of `fill` and of `mirror`."""
    folder = written(room / "folder", {name: os.urandom(BYTES // 3) for name in "abc"})
    with Server(program, room / "a.disk") as server:
        for words in (["fill", str(folder), server.url], ["mirror", server.url, "m"]):
            started = time.monotonic()
            status_of(run_command(*words, "--bwlimit", str(RATE)), 0)
            seconds = time.monotonic() - started
            assert seconds > 0.9 * BYTES / RATE, words[0]
        assert all((Path("m") / path.name).read_bytes() == path.read_bytes() for path in folder.iterdir())
        for text in ("0", "x", "-1", "1kB"):
            status_of(run_command("mirror", server.url, "n", "--bwlimit", text), 2, "--bwlimit")


def test_processes_share_the_bytes_per_second() -> None:
    """Two processes each send half of the bytes per second."""
    rate, started = limits.Rate(RATE), time.monotonic()
    context = multiprocessing.get_context("fork")
    workers = [context.Process(target=rate.wait, args=(RATE // 2,)) for _ in range(2)]
    for worker in workers:
        worker.start()
    for worker in workers:
        worker.join()
    assert time.monotonic() - started > 0.95


@pytest.fixture
def folder_of_command(room: Path) -> Path:
    """Return a folder with the command `ropepeach`."""
    script = room / "bin/ropepeach"
    script.parent.mkdir()
    script.write_text(f"#!/bin/sh\nexec {' '.join(COMMAND)} \"$@\"\n")
    script.chmod(0o755)
    return script.parent


@pytest.mark.parametrize("text, words", [
    ("ropepeach mi", ["mirror"]), ("ropepeach help gr", ["grow"]),
    ("ropepeach mirror --max-d", ["--max-delete", "--max-duration"]), ("ropepeach fill --types ", []),
    ("ropepeach fill folder ", []), ("ropepeach nothing --", []), ("ropepeach --ver", ["--version"])], ids=str)
def test_bash_completes_words(text: str, words: list[str], folder_of_command: Path,
                              monkeypatch: pytest.MonkeyPatch) -> None:
    """bash completes commands and options."""
    monkeypatch.setenv("PATH", f"{folder_of_command}:{os.environ['PATH']}")
    assert completed("bash", text) == words


def test_bash_completes_all_commands(folder_of_command: Path, monkeypatch: pytest.MonkeyPatch) -> None:
    """The commands follow the word `ropepeach`."""
    monkeypatch.setenv("PATH", f"{folder_of_command}:{os.environ['PATH']}")
    assert set(completed("bash", "ropepeach ")) == {*SUBCOMMANDS, "help", "version", "--help", "--version"}


@pytest.mark.parametrize("name", [pytest.param(name, marks=pytest.mark.needs(name)) for name in shells.BEGUN])
def test_a_shell_completes_at_the_terminal(name: str, folder_of_command: Path, room: Path) -> None:
    """A key completes commands, options, values and files, or lists them."""
    folder = written(room / "at", {"depositors/a": b"", "list.toml": b""})
    with shells.shell(name, folder, folder_of_command) as shell:
        for text, line in COMPLETED.items():
            assert shell.completed(text)[0] == line
        for text, words in LISTED.items():
            _, shown = shell.completed(text)
            assert all(re.search(rf"(?<![\w-]){word}(?![\w-])", shown) for word in words), shown


def test_ctrl_c_has_status_130_and_one_line(room: Path) -> None:
    """The JSON object has the status too."""
    def slow(path: str) -> tuple[int, str, bytes]:
        time.sleep(3)
        return 404, "text/plain", b""

    with lists_server.serving(slow) as server:
        words = [*COMMAND, "mirror", server.url, str(room / "m"), "--json"]
        # (a program that a shell started with `&` ignores SIGINT)
        heard = functools.partial(signal.signal, signal.SIGINT, signal.SIG_DFL)
        with subprocess.Popen(words, stdout=subprocess.PIPE, stderr=subprocess.PIPE,
                              text=True, preexec_fn=heard) as run:
            end = time.monotonic() + SECONDS
            while not server.requests and time.monotonic() < end:
                time.sleep(0.02)
            run.send_signal(signal.SIGINT)
            output, messages = run.communicate(timeout=SECONDS)
    found = object_of("mirror",
                      status_and(subprocess.CompletedProcess(words, run.returncode, output, messages), 130))
    assert messages == "ropepeach mirror: stopped; the next run goes on\n", messages
    assert [message["level"] for message in found["messages"]] == ["error"], found


@pytest.mark.parametrize("closed", [">&-", "2>&-", "<&-", "<&- >&- 2>&-"])
def test_a_run_with_closed_standard_files_does_its_work(program: str, room: Path, closed: str) -> None:
    """A run ends with its usual status, and no file of it gets the lines of a closed one."""
    with Server(program, room / "a.disk") as server:
        for words, status in ((f"health {server.url}", 0), (f"mirror {server.url} m", 0), ("look --json a.disk", 0),
                              ("look none", 3), ("--version", 0)):
            line = f"{' '.join(COMMAND)} {words} {closed}"
            ended = subprocess.run(["sh", "-c", line], capture_output=True, text=True)
            assert (ended.returncode, "Traceback" in ended.stderr) == (status, False), f"{words} {closed}: {ended}"
        assert sorted(os.listdir("m")) == ["#known", "#state"]
