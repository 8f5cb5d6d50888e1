"""Devices and memory that fail, by the library of faults.c: which calls of the program fail, and how often it made them."""
import errno
import os
import shutil
import struct
import subprocess

DEVICES = ("input", "output", "errors", "socket", "dial", "bind", "listen", "accept", "receive", "send", "option", "mode", "wait", "lookup", "thread", "memory")
SOURCE = os.path.join(os.path.dirname(os.path.abspath(__file__)), "faults.c")
# The last number of a call that fails, where all do from one on.
ALL = 2**63


class Faults:
    """The library, built in a folder of the caller's; `why_not` says why it cannot be used, or is None."""

    def __init__(self, room, program):
        self.room, self.program = room, program
        self.library, self.counts = os.path.join(room, "faults.so"), os.path.join(room, "counts")
        self.why_not = self.build() or self.try_out()

    def build(self):
        if not shutil.which("cc"):
            return "there is no C compiler (cc) that makes devices fail"
        done = subprocess.run(["cc", "-O1", "-shared", "-fPIC", "-o", self.library, SOURCE, "-ldl"], capture_output=True, text=True)
        return f"the library that makes devices fail is not compiled here: {done.stderr.strip()[-200:]}" if done.returncode else None

    def try_out(self):
        """A program that makes its calls of the system by itself goes past the library."""
        done = subprocess.run([self.program, "--version"], env=self.env(), capture_output=True)
        if done.returncode == 0 and self.called("output") > 0 and self.called("memory") > 0:
            return None
        return "the program does not make its calls through the library that makes them fail"

    def env(self, *faults, pieces=()):
        """The variables of a run in which these calls fail, each a device, the first call, the last one and an error's name; and in which
        the calls of these devices move at most so many bytes."""
        if os.path.exists(self.counts):
            os.unlink(self.counts)
        wanted = ",".join(f"{device}:{first}:{last}:{getattr(errno, error)}" for device, first, last, error in faults)
        return {**os.environ, "LD_PRELOAD": self.library, "COUNTS": self.counts, "FAULTS": wanted, "PIECES": ",".join(f"{device}:{most}" for device, most in pieces)}

    def called(self, device):
        """How often the last run called a device."""
        with open(self.counts, "rb") as counts:
            return struct.unpack(f"={len(DEVICES)}Q", counts.read(8 * len(DEVICES)))[DEVICES.index(device)]
