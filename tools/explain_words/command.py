"""The words of the command, and what each asks for."""

import gc
import os
import re
import shutil
import sys

from .channel import Channel
from .report import Fault, report_of

FLAGS = ("--actions", "--timeline", "--stats", "--json", "--by-entry")
VALUES = ("--svg", "--html", "--from", "--to", "--width")
UNITS = {"s": 10**9, "ms": 10**6, "us": 10**3, "µs": 10**3, "ns": 1}


class Usage(Exception):
    """Words that the command does not take."""


def read_words(words):
    """The plain words and the options."""
    plain, options, at = [], {}, 0
    while at < len(words):
        word, has_value, value = words[at].partition("=") if words[at].startswith("--") else (words[at], "", "")
        at += 1
        if word == "--diff" or word in FLAGS:
            options[word] = True
        elif word in VALUES:
            if not has_value:
                if at == len(words):
                    raise Usage(f"{word} takes a value")
                value, at = words[at], at + 1
            options[word] = value
        elif word.startswith("-") and word != "-":
            raise Usage(f"no option {word}")
        else:
            plain.append(word)
    return plain, options


def load(name):
    """A report's file, read."""
    shown = "standard input" if name == "-" else name
    try:
        if name == "-":
            data = sys.stdin.buffer.read()
        else:
            with open(name, "rb") as file:
                data = file.read()
    except OSError as fault:
        raise SystemExit(complain(f"{shown}: {fault.strerror}")) from None
    try:
        return report_of(data)
    except Fault as fault:
        raise SystemExit(complain(f"{shown}: {fault}")) from None


def follow(name, has_log=False):
    """The session of a report's file. A fault is said in one line, and ends the command with status 1."""
    report = load(name)
    gc.disable()  # one pass that makes objects and frees few: collecting them again and again takes a third of the time
    try:
        return Channel(report, has_log).run()
    except Fault as fault:
        raise SystemExit(complain(f"{'standard input' if name == '-' else name}: {fault}")) from None


def complain(words):
    print(f"error: {words}", file=sys.stderr)
    return 1


def moment_in(channel, text, default):
    """A moment by a time since the first entry (1.5s) or by an entry (120)."""
    if text is None:
        return default
    found = re.fullmatch(r"([0-9]+(?:\.[0-9]+)?)(s|ms|us|µs|ns)", text)
    if found:
        return channel.first_moment + round(float(found.group(1)) * UNITS[found.group(2)])
    if text.isdigit() and 1 <= int(text) <= len(channel.moments):
        return int(text)
    raise Usage(f"'{text}' is no time (as 1.5s or 200ms) and no entry from 1 to {len(channel.moments)}")


def entries_in(channel, options):
    """The first and the last entry of the part that is asked for."""
    first, last = moment_in(channel, options.get("--from"), 1), moment_in(channel, options.get("--to"), len(channel.moments))
    if "--from" in options and not options["--from"].isdigit():
        first = next((entry for entry, moment in enumerate(channel.moments, 1) if moment >= first), len(channel.moments))
    if "--to" in options and not options["--to"].isdigit():
        last = sum(1 for moment in channel.moments if moment <= last)
    return first, last


def width_of(options):
    """The width of the terminal, or 80 columns; a table is cut to it on a terminal alone."""
    if "--width" in options:
        if not options["--width"].isdigit() or not 40 <= int(options["--width"]) <= 1000:
            raise Usage("--width takes a number from 40 to 1000")
        return int(options["--width"]), int(options["--width"])
    width = shutil.get_terminal_size((80, 24)).columns
    return width, width if sys.stdout.isatty() else None


def call_in(channel, word):
    if not word.isdigit() or not 1 <= int(word) <= len(channel.calls):
        last = len(channel.calls)
        raise Usage(f"no call {word}: " + (f"the session has the calls 1 to {last}" if last else "the session has no call"))
    return channel.calls[int(word) - 1]


def say(lines):
    for line in lines:
        print(line)
    return 0


def explain(plain, options):
    if plain and plain[0].isdigit() and not os.path.exists(plain[0]):
        plain = ["-"] + plain
    if not plain or len(plain) > 2:
        raise Usage("one report, and perhaps one call")
    part = [word for word in ("--from", "--to", "--by-entry") if word in options]
    if part and not any(word in options for word in ("--actions", "--timeline", "--svg", "--html")):
        raise Usage(f"{part[0]} goes with --actions, --timeline, --svg or --html")
    width, cut = width_of(options)
    channel = follow(plain[0], has_log="--actions" in options or "--html" in options)
    call = call_in(channel, plain[1]) if len(plain) > 1 else None
    if "--stats" in options or "--json" in options:
        from .stats import stats_lines

        return say(stats_lines(channel, "--json" in options, width))
    if "--svg" in options or "--html" in options:
        return write_pictures(channel, call, options)
    if "--timeline" in options:
        from .timeline import timeline_lines

        return say(timeline_lines(channel, call, entries_in(channel, options), width, "--by-entry" in options))
    if "--actions" in options:
        from .actions import action_lines

        return say(action_lines(channel, call, *entries_in(channel, options)))
    from .calls import call_lines, overview_lines

    return say(call_lines(channel, call, width) if call else overview_lines(channel, cut))


def write_pictures(channel, call, options):
    from .page import page_text
    from .picture import svg_text

    for option, text_of in (("--svg", svg_text), ("--html", page_text)):
        if option in options:
            text = text_of(channel, call, entries_in(channel, options), "--by-entry" in options)
            if options[option] == "-":
                sys.stdout.buffer.write(text.encode())
                continue
            try:
                with open(options[option], "w", encoding="utf-8") as file:
                    file.write(text)
            except OSError as fault:
                return complain(f"{options[option]}: {fault.strerror}")
    return 0


def run(words):
    plain, options = read_words(words)
    if "--diff" in options:
        from .diff import diff_lines

        if len(plain) != 2:
            raise Usage("--diff takes two reports")
        return say(diff_lines(follow(plain[0]), follow(plain[1]), plain, width_of(options)[0]))
    if plain[:1] == ["config"] and not (len(plain) == 1 and os.path.exists("config")):
        from .advice import config_lines

        if len(plain) not in (2, 3):
            raise Usage("config takes a file, and perhaps a path, as /helloworld.Greeter/SayHello")
        return config_lines(plain[1], plain[2] if len(plain) > 2 else None)
    return explain(plain, options)


def main(words, help_text):
    if words in (["--help"], ["-h"]):
        print(help_text)
        return 0
    if not words:
        print(help_text, file=sys.stderr)
        return 2
    sys.stdout.reconfigure(errors="replace")  # where a terminal has no µ
    try:
        return run(words)
    except Usage as fault:
        print(f"error: {fault}\ntools/explain --help says what it takes", file=sys.stderr)
        return 2
    except BrokenPipeError:
        os.dup2(os.open(os.devnull, os.O_WRONLY), sys.stdout.fileno())
        return 0
    except KeyboardInterrupt:
        return 130
