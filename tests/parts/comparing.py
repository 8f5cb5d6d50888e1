"""A generated session by the built program and by the slow program of the definition, side by side."""
import os
import subprocess

from checks import PROGRAM, TOP, difference
from generating import script_of_seed

SLOW = os.path.abspath(os.environ.get("SLOW") or os.path.join(TOP, "crates", "session_actions_run", "out", "session_actions_run"))
SECONDS = 120
LONG = "stopped after"


class Died(Exception):
    """A program that ended otherwise than it should."""


def run(words, script):
    try:
        done = subprocess.run(words, input=script.encode(), capture_output=True, timeout=SECONDS)
    except subprocess.TimeoutExpired as error:
        raise Died(f"{os.path.basename(words[0])} did not end in {SECONDS} s") from error
    out = done.stdout.decode()
    if done.returncode and LONG not in out:
        raise Died(f"{os.path.basename(words[0])} ended with status {done.returncode}: {(out[-200:] or done.stderr.decode()[-200:])!r}")
    return out


def replay(script):
    return run([PROGRAM, "replay"], script)


def compare(seed):
    """What the seed's session shows: its script, both reports, and what is wrong."""
    script = ours = slow = ""
    try:
        script = script_of_seed(seed, replay)
        ours, slow = replay(script), run([SLOW], script)
        wrong = None if ours == slow or LONG in slow else difference(ours, slow)
    except Died as error:
        wrong = str(error)
    return seed, script, ours, slow, wrong


def seen_in(report):
    """The events, replies and ends of attempts of a report."""
    for line in report.splitlines():
        event, is_entry, reply = line.partition(" = ")
        words = reply.split(" ")
        if is_entry:
            yield "events", event.split(" ")[2]
            yield "replies", " ".join([words[0], *words[-1:]] if words[0] == "end" else words[:2] if words[0] == "refused" else words[:1])
        elif line.startswith("row "):
            words = line.split(" ")
            yield "attempts", f"{words[3]} {words[14]}"


def is_slow_built():
    """Whether there is a slow program to compare with."""
    return os.access(SLOW, os.X_OK)
