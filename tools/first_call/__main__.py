"""What `grpcc` at the top runs where the program is not built from the files as they are: it answers help, the version and wrong words
at once, runs the program without its proof where --unproved asks for it, and else proves and builds the program and runs it."""
import os
import re
import shlex
import signal
import subprocess
import sys

sys.dont_write_bytecode = True
sys.path.insert(0, os.path.dirname(os.path.abspath(__file__)))
import proof
import words
from estimate import Estimate, in_words

# What the toolchain says after a program that ended by itself.
NOISE = re.compile(rb"(interpreter: [^\n]*\n)?checked: ended[^\n]*\n(races: [^\n]*\n)?run=ended[^\n]*\n\Z")
NOTE = "interrupted; what was proved until now is kept where the toolchain can, and the next call goes on from there"


class Ended(BaseException):
    """A signal asks this process to end."""

    def __init__(self, number):
        super().__init__(number)
        self.number = number


def on_signal(number, _):
    for it in (signal.SIGINT, signal.SIGTERM, signal.SIGHUP):
        signal.signal(it, signal.SIG_IGN)
    raise Ended(number)


def written(status, out, error):
    """Writes an answer of our own."""
    sys.stderr.write(error)
    try:
        sys.stdout.write(out)
        sys.stdout.flush()
    except OSError as wrong:
        # (so that nothing is written again at the end)
        os.dup2(os.open(os.devnull, os.O_WRONLY), 1)
        if not isinstance(wrong, BrokenPipeError):
            sys.stderr.write(f"error: {wrong.strerror}\n")
        return 5
    return status


CALL_USAGE = "Usage: grpcc call TARGET PATH [-d TEXT].. [OPTIONS]\n"


def for_call(given):
    """The words for the program that calls a service, which they then name no more."""
    if given[:1] != ["call"]:
        return given
    proof.use("grpcc_call")
    return given[1:]


def call_answer(given):
    """What is answered without that program: no words, and words that ask for a text."""
    if given and not {"-h", "--help", "-V", "--version"} & set(given):
        return None
    text = f"The program is not built yet.\n{CALL_USAGE}"
    return (0, text, "") if given else (2, "", text)


def run_unproved(given):
    """Runs the program without its proof, and gives its status."""
    given = for_call(given)
    proof.need_toolchain()
    proof.say("compiles the program without its proof, in a few minutes, and runs it once: nothing is promised of this run")
    run = subprocess.Popen(["rt", "try", "--", *given], cwd=os.path.join(proof.TOP, "crates", proof.NAME), stderr=subprocess.PIPE)
    try:
        said = run.stderr.read()
        status = run.wait()
    finally:
        proof.end(run)
    sys.stderr.buffer.write(NOISE.sub(b"", said))
    sys.stderr.flush()
    return status


def time_here(crates):
    return lambda: in_words(Estimate({name: needs for name, (_, needs) in crates.items()}).rest())


def main(given):
    if given[:1] == ["--unproved"]:
        return run_unproved(given[1:])
    asked = [shlex.quote(it) for it in given]
    given = for_call(given)
    crates = proof.read_crates()
    if not proof.is_built(crates):
        is_call = proof.NAME != "grpcc"
        answer = call_answer(given) if is_call else words.answer(given, time_here(crates))
        if answer:
            return written(*answer)
        proof.build_once(crates, asked)
    # (this language ignores it, and the program would go on to)
    signal.signal(signal.SIGPIPE, signal.SIG_DFL)
    os.execv(proof.PROGRAM, [proof.PROGRAM, *given])


def run(given):
    """The status of a call that does not become the program."""
    for number in (signal.SIGINT, signal.SIGTERM, signal.SIGHUP):
        signal.signal(number, on_signal)
    try:
        return main(given)
    except Ended as ended:
        proof.say("interrupted" if given[:1] == ["--unproved"] else NOTE)
        return 128 + ended.number
    except proof.Failed as failed:
        proof.say(str(failed))
        if failed.status == 1 and os.path.exists(proof.LOG):
            proof.say(f"the log: {proof.LOG}")
        return failed.status
    except OSError as error:
        proof.say(f"the program is not built: {error.filename or ''}: {error.strerror}".replace(" : ", " "))
        return 1


sys.exit(run(sys.argv[1:]))
