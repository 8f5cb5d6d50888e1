"""Answers the words that need no program: help, the version, and words that are wrong. Which words are wrong, and the one line on
standard output, are as the program has them (tests/runners/first-call holds them together); the rest is for people."""
import re

VERSION = "0.1.0"
LARGEST = 2**64 - 1
# The modes, each with its options: the range of the number, and whether it has to be there.
MODES = {
    "replay": {},
    "config": {},
    "migrate": {},
    "serve": {"port": (0, 65535, True), "links": (1, 1024, True)},
    "load": {"seed": (0, LARGEST, True), "calls": (1, 10000, True)},
    "live": {
        "seed": (0, LARGEST, False),
        "nets": (1, 4, False),
        "keepalive": (1, 86400000, False),
        "keepalive-timeout": (1, 86400000, False),
    },
    "relay": {"port": (0, 65535, True), "links": (1, 1024, True), "seed": (0, LARGEST, True), "nets": (1, 4, True)},
}
# Options that stand beside another one alone.
BESIDE = {"keepalive-timeout": "keepalive"}
HELP = """The program is not built yet. The first call that has work for it proves and builds it; that takes {time} here.
For a first look without the proof, in a few minutes: ./grpcc --unproved MODE < INPUT

Modes:
  replay   reads a script, runs it and writes the report
             grpcc replay < examples/one-call.script
  config   reads a service config and writes its reading
             grpcc config < examples/service-config.json
  migrate  reads a script or a report and writes the script of version 2
             grpcc migrate < examples/one-call.report
  serve    reads a server script and serves gRPC calls by it at 127.0.0.1
             grpcc serve --port 50051 --links 1 < examples/hello.server
  load     makes a session from a seed, plays it in memory and sums it up
             grpcc load --seed 1 --calls 1000
  live     reads calls, makes them over TCP and writes the report of the session
             grpcc live < examples/hello.live
  relay    takes gRPC calls at 127.0.0.1, makes them through one channel, and writes its report
             grpcc relay --port 50050 --links 1 --seed 1 --nets 2 < examples/relay.script

Usage: grpcc MODE < INPUT
Once it is built, it has a help of each mode; until then docs/guide/FORMATS.md has the formats and the statuses.
"""


class Wrong(Exception):
    """Words that are refused, with the sentence for people."""


def shown(word):
    """A word for a message."""
    return "".join(it if " " <= it <= "~" else "?" * len(it.encode("utf-8", "surrogateescape")) for it in word)


def asks(word):
    """Whether a word asks for help or the version."""
    found = re.fullmatch(r"--help|--version|-([hV])[hV]*", word)
    return found and (found[1] or word[2]).lower()


def number_in(mode, name, text):
    """Checks the number of an option."""
    least, most, _ = MODES[mode][name]
    if text is None:
        raise Wrong(f"--{name} takes a number from {least} to {most}, and none stands after it")
    if not re.fullmatch(r"[0-9]{1,20}", text) or not least <= int(text) <= most:
        raise Wrong(f"--{name}: '{shown(text)}' is not a number from {least} to {most}")


def read_options(mode, words):
    """Gives what the words after a mode ask for, if anything, or raises Wrong."""
    options, seen, words = MODES[mode], set(), list(words)
    while words:
        word = words.pop(0)
        if asks(word):
            return asks(word)
        name, given, value = word.removeprefix("--").partition("=")
        if not options:
            raise Wrong(f"{mode} takes no words; it reads standard input: grpcc {mode} < FILE")
        if not word.startswith("--") or name not in options:
            raise Wrong(f"'{shown(word)}' is no option of {mode}; options: {' '.join('--' + it for it in options)}")
        if name in seen:
            raise Wrong(f"--{name} stands twice")
        seen.add(name)
        number_in(mode, name, value if given else words.pop(0) if words else None)
    for name, (_, _, is_needed) in options.items():
        if is_needed and name not in seen:
            raise Wrong(f"{mode} takes --{name}, which is missing")
        if name in seen and BESIDE.get(name, name) not in seen:
            raise Wrong(f"--{name} stands beside --{BESIDE[name]} alone")
    return None


def read(words):
    """Gives the mode, if there is one, and what is asked for: 'h', 'v' or nothing; or raises Wrong."""
    for word in words:
        if any("\udc80" <= it <= "\udcff" for it in word):
            raise Wrong("a word of the command is not UTF-8 text")
    modes = f"modes: {' '.join(MODES)}"
    if not words:
        raise Wrong(f"no mode is given; {modes}")
    if asks(words[0]):
        return None, asks(words[0])
    if words[0].startswith("-"):
        raise Wrong(f"no option '{shown(words[0])}'; options: --help, --version, --unproved")
    if words[0] not in MODES:
        raise Wrong(f"no mode '{shown(words[0])}'; {modes}")
    return words[0], read_options(words[0], words[1:])


def answer(words, time):
    """Gives the status, the text for standard output and the one for standard error, or None where the program has to answer. `time`
    gives the time of a proof in words."""
    try:
        mode, asked = read(words)
    except Wrong as wrong:
        return 2, "fault words\n", f"error: {wrong}\nFor help: grpcc --help\n"
    if asked == "h":
        return 0, HELP.format(time=time()), ""
    if asked == "v":
        return 0, f"grpcc {mode + ' ' if mode else ''}{VERSION}\n", ""
    return None
