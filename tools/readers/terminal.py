"""A terminal with one program in it, by tmux: what is typed, and what stands on its screen."""
import os
import pathlib
import re
import subprocess
import time
from typing import Dict, List

# How long the screen may take until it shows what is waited for, in seconds.
PATIENCE = 60.0
# How long it has to stay as it is before it counts as drawn, and how often it is looked at.
QUIET, LOOK = 0.3, 0.1


class Lost(Exception):
    """The screen doesn't show what it should."""


class Terminal:
    """A program in a terminal of 110 columns and 40 lines, at a tmux of its own."""

    def __init__(self, home: pathlib.Path, environment: Dict[str, str], command: List[str]) -> None:
        self.environment = environment
        self.tmux = ["tmux", "-S", str(home / "tmux"), "-f", "/dev/null"]
        self._run("new-session", "-d", "-s", "reader", "-x", "110", "-y", "40", "-c", str(home), *command)

    def _run(self, *words: str) -> str:
        """What tmux prints."""
        done = subprocess.run([*self.tmux, *words], env=self.environment, stdout=subprocess.PIPE, stderr=subprocess.PIPE, timeout=30, check=False)
        return done.stdout.decode("utf-8", "replace")

    def screen(self) -> str:
        """What stands on the screen."""
        return self._run("capture-pane", "-p", "-t", "reader")

    def press(self, *keys: str) -> None:
        """Keys by tmux's names for them."""
        self._run("send-keys", "-t", "reader", *keys)

    def type(self, text: str, *keys: str) -> None:
        """Text as it stands, and keys behind it."""
        self._run("send-keys", "-t", "reader", "-l", "--", text)
        self.press(*keys)

    def wait(self, form: str, patience: float = PATIENCE) -> str:
        """Waits until the screen has this form, and doesn't change any more."""
        began, last, since = time.monotonic(), "", 0.0
        while time.monotonic() - began < patience:
            now = self.screen()
            if now != last:
                last, since = now, time.monotonic()
            elif re.search(form, now) and time.monotonic() - since >= QUIET:
                return now
            time.sleep(LOOK)
        raise Lost(f"{form!r} isn't on the screen:\n{last.rstrip()}")

    def is_there(self) -> bool:
        """Whether the program still runs."""
        return "reader" in self._run("list-sessions")

    def end(self) -> None:
        """Waits for the program's end, or stops it."""
        for _ in range(int(PATIENCE / LOOK)):
            if not self.is_there():
                return
            time.sleep(LOOK)
        self.stop()
        raise Lost("it didn't leave")

    def stop(self) -> None:
        """Stops the program, and the tmux."""
        self._run("kill-server")


def environment_of(home: pathlib.Path, path: pathlib.Path) -> Dict[str, str]:
    """What a reader is given: a home of its own, and nothing of the one that tries it but the path, with a folder in front."""
    words = {"TERM": "xterm-256color", "LANG": "C.UTF-8", "LC_ALL": "C.UTF-8", "TZ": "UTC0", "EDITOR": str(home / "editor")}
    return {**words, "HOME": str(home), "PATH": f"{path}:{os.environ.get('PATH', '')}"}
