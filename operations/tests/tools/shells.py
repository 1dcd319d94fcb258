"""Complete the command `ropepeach` in shells on a terminal, as a user does."""
from __future__ import annotations

import contextlib
import os
import pty
import select
import signal
import subprocess
import time
from collections.abc import Callable, Iterator
from pathlib import Path

from tests.program import ROOT, Differs

# The timeout of a shell's start and of a completion, in seconds.
SECONDS = 60
PROMPT = "READY> "
# Keys that clear the line, complete the last word, and write the line into a file.
EMPTY, COMPLETE, WRITE = "\x15", "\t", "\x07"
# Settings of a shell. A question before a long list would wait for a key.
SETTINGS = {
    "bash": f"""
bind 'set completion-query-items 0'
bind 'set show-all-if-ambiguous on'
bind 'set page-completions off'
bind 'set bell-style none'
source {ROOT}/operations/install/ropepeach.bash
written() {{ printf '%s\\n' "$READLINE_LINE" > "$LINE.new"; mv "$LINE.new" "$LINE"; }}
bind -x '"\\C-g": written'
PS1='{PROMPT}'
""",
    "zsh": f"""
LISTMAX=1000
fpath=({ROOT}/operations/install $fpath)
autoload -Uz compinit
compinit -u -D
unsetopt beep
unset zle_bracketed_paste
written() {{ print -r -- "$BUFFER" > "$LINE.new"; mv "$LINE.new" "$LINE" }}
zle -N written
bindkey '^G' written
bindkey '^U' kill-whole-line
PROMPT='{PROMPT}'
""",
}
BEGUN = {"bash": ("bash", "--norc", "--noprofile", "-i"), "zsh": ("zsh", "-f", "-i")}


class Shell:
    """A shell at its prompt."""

    def __init__(self, name: str, room: Path, commands: Path) -> None:
        """Start a shell; `commands` is a folder with the command `ropepeach`, and files are completed in the room."""
        self.line, settings = room / "line", room / f"settings.{name}"
        settings.write_text(SETTINGS[name])
        self.keys, its = pty.openpty()
        environment = {"PATH": f"{commands}:{os.environ['PATH']}", "HOME": str(room), "LINE": str(self.line),
                       "TERM": "dumb",
                       "COLUMNS": "200", "LINES": "50", "LC_ALL": "C.UTF-8"}
        self.process = subprocess.Popen(BEGUN[name], stdin=its, stdout=its, stderr=its, cwd=room, env=environment,
                                        start_new_session=True)
        os.close(its)
        self.shown, self.commands = "", 0
        self.press(f" source {settings}\n")
        self.wait_for(lambda: PROMPT in self.shown, "prompt")

    def press(self, keys: str) -> None:
        """Press keys."""
        os.write(self.keys, keys.encode())

    def wait_for(self, is_so: Callable[[], bool], what: str) -> None:
        """Read the shell's output until `is_so` is true."""
        end = time.monotonic() + SECONDS
        while not is_so():
            if time.monotonic() > end:
                raise Differs(f"no {what} within {SECONDS} seconds: {self.shown[-400:]!r}")
            if select.select([self.keys], [], [], 0.05)[0]:
                with contextlib.suppress(OSError):
                    self.shown += os.read(self.keys, 65_536).decode(errors="replace")

    def completed(self, text: str) -> tuple[str, str]:
        """Complete a text by a key; return the line, and the output until the next prompt."""
        self.line.unlink(missing_ok=True)
        self.shown = ""
        self.press(f"{EMPTY}{text}{COMPLETE}{WRITE}")
        self.wait_for(self.line.exists, "line")
        shown = self.shown_before_a_command()
        return self.line.read_text().removesuffix("\n"), shown

    def shown_before_a_command(self) -> str:
        """Run a command; return all text before its output, once the next prompt is there."""
        self.commands += 1
        self.press(f"{EMPTY} printf 'END%s\\n' {self.commands}\n")
        end = f"END{self.commands}"
        self.wait_for(lambda: PROMPT in self.shown.partition(end)[2], "prompt")
        return self.shown.partition(end)[0]

    def close(self) -> None:
        """End the shell."""
        with contextlib.suppress(OSError):
            os.killpg(self.process.pid, signal.SIGKILL)
        self.process.wait(SECONDS)
        os.close(self.keys)


@contextlib.contextmanager
def shell(name: str, room: Path, commands: Path) -> Iterator[Shell]:
    """Yield a shell; end it with the block."""
    found = Shell(name, room, commands)
    try:
        yield found
    finally:
        found.close()
