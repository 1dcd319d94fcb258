"""Test that `ropepeach fill` and `ropepeach size` read nothing outside a folder that others write into, and print names
and responses as printable text.
"""
from __future__ import annotations

import os
import pathlib
import socket
import subprocess
import time
from collections.abc import Callable

from operations.tests.harness.server import Answer, Request
from operations.tests.tools.hostile_source import Liar, answered
from operations.tests.tools.running import begun, ended, ropepeach, wait_until, written
from operations.tests.tools.taking_source import Taking

DEEP = 1_500


def filled(liar: Liar, *words: str, status: int = 0, says: str = "") -> tuple[str, str]:
    """Run fill, and check its exit status and its messages."""
    found, output, messages = ropepeach("fill", "folder", liar.base, "--no-publish", *words)
    assert found == status, messages
    assert says in messages and "Traceback" not in messages
    return output, messages


def test_links_are_not_followed(room: pathlib.Path) -> None:
    """fill leaves out a link and names it; --links takes its target if that is inside FOLDER."""
    written("outside", {"secret": b"secret", "d/secret": b"secret"})
    written("folder-of-others", {"secret": b"secret"})
    written("folder", {"a": b"a", "d/b": b"b"})
    for name, to in {"out": "../outside/secret", "whole": os.path.abspath("outside/secret"),
                     "up": "d/../../outside/secret", "shadow": "/etc/shadow",
                     "folders": "../outside/d", "gone": "none", "round": "round", "self": ".",
                     "beside": "../folder-of-others/secret"}.items():
        os.symlink(to, f"folder/{name}")
    os.symlink("../a", "folder/d/inside")
    os.symlink(os.path.abspath("folder/d/b"), "folder/inside")
    with Taking() as liar:
        _, messages = filled(liar, status=3,
                             says="left out shadow: it is a link, and is not followed (--links ")
        assert messages.count("left out ") == 11
        assert liar.put == {"a": b"a", "d/b": b"b"}
        liar.put.clear()
        _, messages = filled(liar, "--links", status=3,
                             says="left out shadow: it is a link that leads out of FOLDER")
        assert liar.put == {"a": b"a", "d/b": b"b", "d/inside": b"a", "inside": b"b"}
    options: list[tuple[list[str], int]] = [([], 2), (["--links"], 4)]
    for words, count in options:
        status, _, messages = ropepeach("size", "folder", *words)
        assert status == 3
        assert f"{count} files of {count} bytes" in messages


def test_a_folder_that_becomes_a_link_is_not_followed(room: pathlib.Path) -> None:
    """fill leaves out a folder that another process replaces by a link during the run."""
    written("outside", {f"{number:02}": b"secret" for number in range(40)})
    written("folder", {f"{above}/{number:02}": b"b" for above in ("d", "e") for number in range(40)})
    with Taking() as liar:
        before = liar.handle

        def answer(request: Request) -> Answer:
            if not os.path.islink("folder/e") and any(request.method == "PUT" for request in liar.requests):
                os.replace("folder/e", "elsewhere")
                os.symlink("../outside", "folder/e")
            return before(request)

        liar.handle = answer
        _, messages = filled(liar, status=3, says="left out e/00: it lies below a link")
        assert liar.put == {f"d/{number:02}": b"b" for number in range(40)}
        assert (os.path.islink("folder/e"), messages.count("it lies below a link")) == (True, 40)


def nested(folder: str, depth: int) -> None:
    """Make nested folders, with a file in the innermost."""
    before = os.open(".", os.O_RDONLY)
    os.makedirs(folder, exist_ok=True)
    os.chdir(folder)
    for _ in range(depth):
        os.mkdir("q")
        os.chdir("q")
    pathlib.Path("last").write_bytes(b"x")
    os.fchdir(before)
    os.close(before)


def test_deep_folders_are_left_out(room: pathlib.Path) -> None:
    """One line reports 1,500 nested folders; a file with a name of 240 bytes is put."""
    try:
        look_at_deep_folders()
    finally:
        # (Python cannot remove these folders)
        subprocess.run(["rm", "-rf", "folder", "mirror", "m"], check=True)


def look_at_deep_folders() -> None:
    """Run the commands that read folders on nested folders."""
    long = "/".join(["n"] * 119) + "/nn"
    written("folder", {"a": b"a", long: b"long", "q/q/b": b"b"})
    nested("folder/deep", DEEP)
    with Taking() as liar:
        _, messages = filled(liar, status=3, says="/: what it holds has names of more than 240 bytes")
        assert messages.count("\n") == 1
        assert liar.put == {"a": b"a", long: b"long", "q/q/b": b"b"}
        assert max(map(len, liar.put)) == 240
    status, _, messages = ropepeach("size", "folder")
    assert (status, messages.count("\n")) == (3, 2), f"size: {messages}"
    nested("mirror", DEEP)
    with Liar() as liar:
        status, _, messages = ropepeach("mirror", liar.base, "mirror")
        assert (status, messages.count("\n")) == (3, 1), f"a mirror's folder: {messages}"
        assert ropepeach("mirror", liar.base, "m")[0] == 0
        nested("m", DEEP)
        # (a run without changes does not read the folder)
        status, _, messages = ropepeach("mirror", liar.base, "m", "--baseline")
        assert (status, messages.count("\n")) == (3, 1), f"a mirror's folder: {messages}"
        assert "lies deeper than any resource" in messages


def test_names_and_answers_are_printed_as_printable_lines(room: pathlib.Path) -> None:
    """Names and responses with escapes and line feeds are printed on one printable line."""
    odd = {os.fsdecode(name): b"x" for name in (b"e\x1b]0;owned\x07", b"f\nropepeach fill: all is well", b"g\xff\xfe",
                                                "h\u202e\u2028".encode())}
    written("folder", odd | {f"{'l' * 200}\x1b[2J\n{'l' * 40}": b"x", "a": b"a"})
    with Taking() as liar:
        liar.published = b"published \x1b]0;owned\x07\nropepeach fill: all is well\r\x9b31m"
        status, output, messages = ropepeach("fill", "folder", liar.base)
        assert status == 3, f"{messages}: the status"
        assert (messages + output).replace("\n", "").isprintable()
        assert (output.count("\n"), messages.count("\n")) == (1, 1)
        output = ropepeach("fill", "folder", liar.base, "--dry-run")[1]
        assert (output.count("\n"), output.isascii()) == (6, True)
        liar.answers["/changelist.xml"] = answered(b"NotHeld\x1b", "500 \x1b[31m\xe9", "Content-Type: text/plain\r\n")
        status, _, messages = ropepeach("fill", "folder", liar.base, "--patience", "0.2")
        assert (status, messages.replace("\n", "").isprintable()) == (1, True), f"{messages}: a refusal"


def test_arguments_are_printed_as_printable_lines(room: pathlib.Path) -> None:
    """A file name, an address and an option with escapes are printable; one run uses ASCII."""
    pathlib.Path("folder").mkdir()
    environment = os.environ | {"PYTHONIOENCODING": "ascii", "no_proxy": "127.0.0.1"}
    status, _, messages = ended(begun("size", "folder", "--types", "n\xe9ant\x1b", env=environment))
    assert (status, messages.replace("\n", "").isprintable()) == (3, True), f"{messages}: another character set"
    status, _, messages = ropepeach("fill", "folder", "http://\x1b[31m\xe9\n/")
    assert (status, messages.count("\n"), messages.replace("\n", "").isprintable()) == (2, 1, True)
    status, _, messages = ropepeach("fill", "--no\x1b]0;such")
    assert (status, messages.replace("\n", "").isprintable()) == (2, True), f"{messages}: an option"


def test_pipes_sockets_and_devices_block_no_run(room: pathlib.Path) -> None:
    """`fill` leaves out pipes and sockets; a mirror replaces a pipe and wrong links."""
    written("folder", {"a": b"a"})
    os.mkfifo("folder/pipe")
    with socket.socket(socket.AF_UNIX) as bound, Taking() as liar:
        bound.bind("folder/socket")
        started = time.monotonic()
        filled(liar, status=3, says="left out pipe: it is no regular file")
        assert liar.put == {"a": b"a"}
        assert time.monotonic() - started < 20
    with Liar() as liar:
        pathlib.Path("m").mkdir()
        assert ropepeach("mirror", liar.base, "m")[0] == 0
        makers: list[Callable[[str], object]] = [os.mkfifo, lambda path: os.symlink("none", path),
                                                 lambda path: os.symlink(path, path)]
        for make in makers:
            os.remove("m/a")
            make("m/a")
            assert ropepeach("mirror", liar.base, "m", "--baseline")[0] == 0
            wait_until(lambda: pathlib.Path("m/a").read_bytes() == b"body", "the file")
