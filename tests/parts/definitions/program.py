"""The program that computes the definition of a session, crates/session_actions_run: what it makes of a script, or of the script in a report."""

import os
import subprocess

from .scripts import is_report, posts_of

PATH = "crates/session_actions_run/out/session_actions_run"
ENTRY = "entry "
DONE, BAD_LINE, TOO_LONG = 0, 3, 7
SECONDS = 120


class Program:
    """The program, if it is built; the variable ACTIONS_PROGRAM may name it."""

    def __init__(self, top):
        self.path, self.known = os.path.abspath(os.environ.get("ACTIONS_PROGRAM") or os.path.join(top, PATH)), {}

    def is_built(self):
        return os.access(self.path, os.X_OK)

    def run_script(self, text, *words):
        """Its status, and what it writes of a script, with these words of the command."""
        try:
            ran = subprocess.run([self.path, *words], input=text.encode("latin-1"), capture_output=True, timeout=SECONDS)
        except subprocess.TimeoutExpired:
            return None, f"no end within {SECONDS} seconds"
        return ran.returncode, ran.stdout.decode("latin-1")

    def run(self, text, *words):
        """The same of a script or report; of posts that it was run on before, what it made of them."""
        key = (posts_of(text), *words)
        if key not in self.known:
            self.known[key] = self.run_script(text, *(["--report"] if is_report(text) else []), *words)
        return self.known[key]

    def report(self, text):
        """The lines of the report of the session; of one that has none what it says instead."""
        return self.run(text)[1].split("\n")[:-1]

    def entries(self, text):
        """The lines of the actions of the session, entry by entry."""
        entries = []
        for line in self.run(text, "--print")[1].split("\n")[:-1]:
            if line.startswith(ENTRY):
                entries.append([])
            elif entries:
                entries[-1].append(line)
        return entries
