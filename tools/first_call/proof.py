"""Proves and builds the program: `rt ci`, the toolchain's own planner, over a copy that has only the crates below the program, without
their edits. What the toolchain proves there it keeps by the sums of what was read, so the gate proves none of it again."""
import ctypes
import fcntl
import hashlib
import os
import re
import shutil
import signal
import subprocess
import sys
import tempfile
import time

from estimate import Estimate, in_words, processors

TOP = os.path.dirname(os.path.dirname(os.path.dirname(os.path.abspath(__file__))))
OUT = os.path.join(TOP, "out")
LOG = os.path.join(OUT, "first-call.log")
# The program, by its crate (`use` names another one).
NAME = "grpcc"
PROGRAM = os.path.join(TOP, "crates", NAME, "out", NAME)
# What the program that stands there was built from, and which program that was.
BUILT_OF = PROGRAM + ".of"
LOGIC = "dac8208d650f15bf"
# The MB of disk that the toolchain wants.
LEAST_DISK = 3000
SECONDS_BETWEEN_LINES = 15
PREFIX = "grpcc-first-call-"
ENDS = re.compile(r"^rt: (\w+) (proved|is kept: .*)$")
FAILS = re.compile(r"^rt: (\w+) NOT PROVED(?!: its library)")
FULL = re.compile(r"No space left|the disk is full")


class Failed(Exception):
    """Why the program is not built, with the status."""

    def __init__(self, why, status=1):
        super().__init__(why)
        self.status = status


def use(name):
    """Has the program of this crate proved, built and run."""
    global NAME, PROGRAM, BUILT_OF
    NAME = name
    PROGRAM = os.path.join(TOP, "crates", name, "out", name)
    BUILT_OF = PROGRAM + ".of"


def say(text):
    print(f"grpcc: {text}", file=sys.stderr, flush=True)


def need_toolchain():
    """Raises Failed unless the toolchain that the program is written for is on the path."""
    if not shutil.which("rt"):
        raise Failed("the Rattle toolchain is missing: there is no command rt on the path", 127)
    try:
        ran = subprocess.run(["rt", "version"], stdin=subprocess.DEVNULL, capture_output=True, errors="replace", timeout=60)
        line = ran.stdout.strip()
    except (OSError, subprocess.TimeoutExpired) as error:
        raise Failed(f"the Rattle toolchain does not work: rt version: {error}", 127) from error
    if not line.endswith(f"logic {LOGIC}"):
        raise Failed(f"the Rattle toolchain is another one: rt version says '{line}', and has to end with 'logic {LOGIC}'", 127)


def read_crates():
    """The crates below the program and itself, lowest first, each with its line of crates.txt and the names of those it stands on."""
    lines = {}
    with open(os.path.join(TOP, "crates.txt"), encoding="utf-8") as it:
        for line in it:
            head, colon, tail = line.partition("#")[0].partition(":")
            if colon and head.strip():
                lines[head.split()[0]] = line, tail.split()
    found = {}

    def add(name):
        if name not in found:
            needs = [it for it in lines[name][1] if it in lines]
            for it in needs:
                add(it)
            found[name] = lines[name][0], needs

    add(NAME)
    return found


def files_of(crates):
    """The files that a proof of the crates reads, or that a run of the program does."""
    found = [os.path.join(TOP, it) for it in ("crates.txt", "HANDLES")]
    for name in crates:
        for at, folders, files in os.walk(os.path.join(TOP, "crates", name)):
            folders[:] = sorted(it for it in folders if it not in ("out", "must-fail"))
            found += [os.path.join(at, it) for it in sorted(files) if not it.endswith(".md")]
    return found


def sum_of(crates):
    """A sum of what the program is built from, and of the program that stands there."""
    sum = hashlib.sha256("".join(line for line, _ in crates.values()).encode())
    for file in [*files_of(crates), PROGRAM]:
        if os.path.basename(file) != "crates.txt":
            with open(file, "rb") as it:
                text = it.read()
            sum.update(f"{os.path.relpath(file, TOP)} {len(text)}\n".encode() + text)
    return sum.hexdigest()


def is_built(crates):
    """Whether the program that stands there was built from these files, also where some were touched since."""
    try:
        newest = max(os.stat(it).st_mtime for it in files_of(crates))
        if os.access(PROGRAM, os.X_OK) and newest <= os.stat(PROGRAM).st_mtime:
            return True
        with open(BUILT_OF, encoding="utf-8") as it:
            if it.read() != sum_of(crates):
                return False
        os.utime(PROGRAM)
        return True
    except OSError:
        return False


def copy_crates(crates, to):
    """Makes a repository of the crates below the program alone."""
    for file in files_of(crates)[1:]:
        other = os.path.join(to, os.path.relpath(file, TOP))
        os.makedirs(os.path.dirname(other), exist_ok=True)
        shutil.copyfile(file, other, follow_symlinks=False)
    with open(os.path.join(to, "crates.txt"), "w", encoding="utf-8") as it:
        it.writelines(line if line.endswith("\n") else line + "\n" for line, _ in crates.values())
    # (so that it is the top of a repository)
    os.mkdir(os.path.join(to, ".git"))


def sweep():
    """Removes the copies that killed calls left."""
    at = tempfile.gettempdir()
    for name in os.listdir(at):
        found = re.match(PREFIX + r"(\d+)-", name)
        if found and not os.path.exists(f"/proc/{found[1]}"):
            shutil.rmtree(os.path.join(at, name), ignore_errors=True)


def need_disk():
    for place in (tempfile.gettempdir(), TOP):
        left = shutil.disk_usage(place).free >> 20
        if left < LEAST_DISK:
            raise Failed(f"the disk of {place} has {left} MB left, and a proof wants {LEAST_DISK}: free some and call again")


def end_with_us():
    """Has the kernel end the toolchain where this process is killed."""
    ctypes.CDLL(None).prctl(1, signal.SIGTERM)


class Progress:
    """What is told while the toolchain works."""

    def __init__(self, needs):
        self.estimate, self.done, self.kept = Estimate(needs), [], 0
        self.begun = self.changed = self.told = time.monotonic()
        self.ends = self.estimate.ends()
        self.left = self.ends[-1]
        self.is_terminal = sys.stderr.isatty()

    def ended(self, name, is_kept):
        """Notes that a crate is proved. So many were foreseen to be proved by some moment: how late it is then says how fast this machine is."""
        self.done.append(name)
        self.kept += is_kept
        self.changed = time.monotonic()
        foreseen = self.ends[min(len(self.done), len(self.ends)) - 1]
        if self.kept or foreseen <= 120:
            self.left = self.estimate.rest(self.done)
        else:
            rate = (self.changed - self.begun) / foreseen
            self.left = (self.ends[-1] - foreseen) * min(max(rate, 0.3), 5)

    def tell(self):
        """Rewrites one line on a terminal, and else writes one now and then."""
        now = time.monotonic()
        if now - self.told < (1 if self.is_terminal else SECONDS_BETWEEN_LINES):
            return
        self.told = now
        left = self.left - (now - self.changed)
        after = f"{int(now - self.begun) // 60} min {int(now - self.begun) % 60} s"
        line = f"{len(self.done)} of {len(self.estimate.needs)} crates proved after {after}, {in_words(left)} left"
        if self.is_terminal:
            print(f"\r\033[Kgrpcc: {line}", end="", file=sys.stderr, flush=True)
        else:
            say(line)

    def clear(self):
        if self.is_terminal:
            print("\r\033[K", end="", file=sys.stderr, flush=True)


def end(run):
    """Ends the toolchain, with all that it began."""
    for number in (signal.SIGTERM, signal.SIGKILL):
        if run.poll() is None:
            run.send_signal(number)
            try:
                run.wait(timeout=10)
            except subprocess.TimeoutExpired:
                pass


def reason():
    """The line of the log that says best why a proof failed, with the crate's name where it is one crate's."""
    with open(LOG, encoding="utf-8", errors="replace") as it:
        lines = it.read().splitlines()
    for line in lines:
        if FULL.search(line):
            return f"the disk is full ({shutil.disk_usage(TOP).free >> 20} MB left): free some and call again"
    for at, line in enumerate(lines):
        found = FAILS.match(line)
        if found:
            begin = next((it for it in range(at, -1, -1) if lines[it].startswith(f"== {found[1]}")), at)
            wrong = [it for it in lines[begin:at] if re.search(r"error|refused|not proved|killed|cannot", it, re.I)]
            return f"the crate {found[1]} is not proved: {(wrong or lines[begin + 1 : at] or ['no reason is given'])[0][:300]}"
    ours = [it[4:] for it in lines if it.startswith("rt: ")]
    return (ours or lines or ["it wrote nothing"])[-1][:300]


def watch(run, progress, log):
    """Tells how far the toolchain is until it ends; it is ended where a crate fails, since no program comes of it then."""
    rest = ""
    while True:
        is_over = run.poll() is not None
        *lines, rest = (rest + log.read()).split("\n")
        for line in lines:
            found = ENDS.match(line)
            if found:
                progress.ended(found[1], found[2] != "proved")
            elif FAILS.match(line):
                end(run)
                raise Failed(reason())
        if is_over:
            return run.returncode
        progress.tell()
        time.sleep(0.2)


def prove(copy, progress):
    """Runs the toolchain over the copy."""
    with open(LOG, "w", encoding="utf-8") as out, open(LOG, encoding="utf-8", errors="replace") as log:
        run = subprocess.Popen(["rt", "ci"], cwd=copy, stdin=subprocess.DEVNULL, stdout=out, stderr=out, preexec_fn=end_with_us)
        try:
            status = watch(run, progress, log)
        finally:
            end(run)
            progress.clear()
    if status or not os.access(os.path.join(copy, "crates", NAME, "out", NAME), os.X_OK):
        raise Failed(reason())


def take(copy, crates, begun):
    """Gives the built program its place, in one step, dated by the moment at which its files were read."""
    made = f"{PROGRAM}.{os.getpid()}"
    os.makedirs(os.path.dirname(PROGRAM), exist_ok=True)
    try:
        shutil.copyfile(os.path.join(copy, "crates", NAME, "out", NAME), made)
        os.chmod(made, 0o755)
        os.utime(made, (begun, begun))
        os.replace(made, PROGRAM)
    finally:
        if os.path.exists(made):
            os.remove(made)
    # (where files were changed meanwhile, the program is none of theirs)
    if max(os.stat(it).st_mtime for it in files_of(crates)) <= begun:
        with open(BUILT_OF, "w", encoding="utf-8") as it:
            it.write(sum_of(crates))


def build(crates, words):
    """Proves and builds the program in a copy."""
    need_toolchain()
    need_disk()
    sweep()
    progress = Progress({name: needs for name, (_, needs) in crates.items()})
    time_here = f"{in_words(progress.left)} on {processors()} processors"
    say(f"the program is not built from these files: proving it, {len(crates)} crates, {time_here}")
    say(f"for a first look without the proof, in a few minutes: ./grpcc --unproved {' '.join(words)}")
    with tempfile.TemporaryDirectory(prefix=f"{PREFIX}{os.getpid()}-") as room:
        copy, begun = os.path.join(room, "repository"), time.time()
        os.mkdir(copy)
        copy_crates(crates, copy)
        prove(copy, progress)
        take(copy, crates, begun)
    say(f"proved and built after {int(time.monotonic() - progress.begun) // 60} min")


def build_once(crates, words):
    """Builds the program unless another call of this checkout has done so by then."""
    os.makedirs(OUT, exist_ok=True)
    with open(os.path.join(OUT, "first-call.lock"), "w", encoding="utf-8") as lock:
        try:
            fcntl.flock(lock, fcntl.LOCK_EX | fcntl.LOCK_NB)
        except BlockingIOError:
            say("another call is proving and building the program in this checkout: waiting for it")
            fcntl.flock(lock, fcntl.LOCK_EX)
        if not is_built(crates):
            build(crates, words)
