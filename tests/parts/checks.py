"""What the runners of tests/runners share: where the program lies, which tests are asked for, the count, and the line of a failure."""
import os
import signal
import sys
import time
import traceback

TOP = os.path.dirname(os.path.dirname(os.path.dirname(os.path.abspath(__file__))))
PROGRAM = os.path.abspath(os.environ.get("PROGRAM") or os.path.join(TOP, "crates", "grpcc", "out", "grpcc"))
LONGEST = 300
MOST_NAMES = 12


def is_built():
    """Whether there is a program to try."""
    return os.access(PROGRAM, os.X_OK)


def shown(value):
    """A value for a message: in part where it is long."""
    text = value.decode("utf-8", "backslashreplace") if isinstance(value, bytes) else value
    text = repr(text)
    return text if len(text) <= LONGEST else f"{text[: LONGEST // 2]}..{text[-LONGEST // 4 :]} ({len(text)} characters)"


def lines_of(text):
    """The lines of a text, each with its end, and what comes after the last."""
    return text.splitlines(keepends=True)


def difference(came, want):
    """Says where two values differ first: the line of a text, the element of a list, or what a key names."""
    if type(came) is type(want) and isinstance(came, (str, bytes)):
        ours, theirs = lines_of(came), lines_of(want)
        at = next((n for n, (one, other) in enumerate(zip(ours, theirs)) if one != other), min(len(ours), len(theirs)))
        got, expected = (shown(it[at]) if at < len(it) else "no such line" for it in (ours, theirs))
        place = f"line {at + 1}: " if max(len(ours), len(theirs)) > 1 else ""
        return f"{place}expected {expected}, got {got}"
    if type(came) is type(want) and isinstance(came, (tuple, list)) and len(came) == len(want):
        at = next(n for n, (one, other) in enumerate(zip(came, want)) if one != other)
        return f"value {at + 1}: {difference(came[at], want[at])}"
    if type(came) is type(want) is dict and came.keys() == want.keys():
        key = next(it for it in want if came[it] != want[it])
        return f"{key}: {difference(came[key], want[key])}"
    return f"expected {shown(want)}, got {shown(came)}"


# seconds that `slowness` takes for its piece of work on a machine of two years ago that does nothing else
IDLE = 0.1


def slowness():
    """How many times longer than on an idle machine a fixed piece of work takes now, at least once as long."""
    begun, left = time.monotonic(), 0
    for n in range(1_000_000):
        left = (left + n * n) % 7
    return max(1.0, (time.monotonic() - begun) / IDLE)


def timed(took, longest):
    """Whether something ended within its bound. A bound is for a machine that does nothing else: where one is passed, twice as much is
    allowed, and more the slower this machine is just now, and a line says so."""
    if took <= longest:
        return "in time"
    allowed = 2 * longest * max(slowness() for _ in range(3))
    if took > allowed:
        return f"after {took:.1f} s"
    print(f"late: after {took:.1f} s, where {longest} s are asked of an idle machine, and {allowed:.1f} s of this one now", flush=True)
    return "in time"


CASES = []


def case(name):
    """Marks a function as the test of this name; it is called with what `run_cases` is given."""
    return lambda function: CASES.append((name, function)) or function


def run_cases(count, *given, needs_program=True, tries=1):
    """Runs the marked functions that are asked for, if the program that they need is there, and gives the status. Where tests lean on the
    clock of a machine that others use too, one that fails is tried again, so many times in all: the last time counts, and what failed
    before it is reported in lines of their own."""
    # (who starts this may have it ignore or hold back signals, as a shell does in the background; the programs that are tried would
    # inherit that)
    signal.signal(signal.SIGINT, signal.default_int_handler)
    signal.signal(signal.SIGTERM, signal.SIG_DFL)
    signal.pthread_sigmask(signal.SIG_UNBLOCK, {signal.SIGINT, signal.SIGTERM, signal.SIGHUP})
    for name, function in CASES:
        if count.asks_for(name):
            if needs_program and not is_built():
                count.skip("the program is not built")
                break
            left = tries
            while not count.runs(name, lambda: function(*given), is_last=left <= 1):
                left -= 1
    return count.end()


class Checks:
    """The tests of one runner, called as KIND [PART OF A NAME] or KIND --list."""

    def __init__(self, words=None):
        words = sys.argv[1:] if words is None else words
        self.is_list = words[:1] == ["--list"]
        self.part = "" if self.is_list or not words else words[0]
        self.names, self.asked, self.passed, self.failed, self.kept = [], 0, 0, 0, None

    def asks_for(self, name):
        """Whether the test of this name is to run."""
        self.names.append(name)
        if self.is_list:
            print(name)
            return False
        self.asked += self.part in name
        return self.part in name

    def runs(self, name, function, is_last=True):
        """Runs a test, and answers whether its rows count: those of one that failed count only where it is not tried again."""
        before, self.kept = (self.passed, self.failed), []
        try:
            function()
        except Exception as error:  # (the tests after it still run)
            at = traceback.extract_tb(error.__traceback__)[-1]
            self.count(name, f"{type(error).__name__}: {error} ({os.path.basename(at.filename)}:{at.lineno})", "a test that runs to its end")
        lines, self.kept = self.kept, None
        has_passed = self.failed == before[1]
        if not has_passed and not is_last:
            self.passed, self.failed = before
        for line in lines:
            print(f"{'failed' if is_last else 'tried again'}: {line}", flush=True)
        return has_passed or is_last

    def count(self, name, came, want):
        """Counts a comparison, and says of one that fails where it differs first."""
        if came == want:
            self.passed += 1
            return
        self.failed += 1
        line = f"{name}: {difference(came, want)}"
        if self.kept is None:
            print(f"failed: {line}", flush=True)
        else:
            self.kept.append(line)

    def skip(self, why):
        """Says of what cannot run here why it does not."""
        print(f"skipped: {why}", flush=True)

    def end(self):
        """Writes the last line, and gives the status: 1 where a test failed, 2 where none has such a name, 3 where none ran."""
        if self.is_list:
            return 0
        if self.names and not self.asked:
            few = ", ".join(self.names[:MOST_NAMES]) + (", .." if len(self.names) > MOST_NAMES else "")
            print(f"no test has {self.part!r} in its name; there are {len(self.names)}: {few}", file=sys.stderr)
            return 2
        print(f"{self.passed} passed, {self.failed} failed")
        return 1 if self.failed else 0 if self.passed else 3
