"""What happened within each entry, in order, by the names of the session's actions (docs/proof/DEFINITIONS.md where it has them)."""

from .calls import after_begin
from .names import CODES, ERRORS, FRAMES, REFUSALS, name_in, short
from .steps import came
from .why import attempt_name
from .wire import Wire, entry_text, of_streams

COMMITS = {
    "head": "its head came",
    "overflow": "the messages passed 262,144 bytes",
    "final": "its end is the call's",
    "handed": "the call was committed before it",
}


def call_row(row):
    return f"call {row.call.number} {attempt_name(row)}"


def frame_name(kind):
    return FRAMES[kind] if kind < len(FRAMES) else f"a frame of type {kind}"


def made_words(row):
    return f"call {row.call.number} {attempt_name(row)} joins the queue, due at {row.due}"


def ended_words(row):
    end = row.end
    more = f"; {end.tokens / 1000:g} tokens" if end.tokens is not None else ""
    more += f"; word {end.word} draws the wait" if end.word is not None else ""
    return f"{call_row(row)}: {came(row)}{more}"


def picked_words(row, generation, sub):
    answer = f"subchannel {sub.number}" if sub else "fail"
    return f"{generation.kind} (generation {generation.number}) is asked for {call_row(row)}, and answers: {answer}"


WORDS = {
    "EventRefused": lambda name, number: REFUSALS[number],
    "EventAnswered": lambda name, reply: {"octets": "the bytes that may be sent", "notyet": "nothing is there yet"}.get(reply, reply),
    "CallBegins": lambda call: f"call {call.number} {call.path}",
    "MessageAccepted": lambda call, size: f"call {call.number}, {size:,} bytes",
    "RequestFinished": lambda call: f"call {call.number}",
    "ItemTaken": lambda call, item: f"call {call.number}: {item}",
    "CallEnds": lambda call: f"call {call.number}: {CODES[call.end_code()]} ({call.end.cause})",
    "ConfigRead": lambda reply: "valid" if reply == "done" else f"it has a fault: {reply}",
    "ResolutionFailed": lambda: "",
    "CallConfigured": lambda call: f"call {call.number}, by config {call.config}"
    + (f", methodConfig[{call.method.place}]" if call.name is not None else ", no entry is for it"),
    "AttemptMade": made_words,
    "HedgeWithheld": lambda call: f"call {call.number}: not more than half of the tokens are left",
    "PickRequested": picked_words,
    "AttemptPlaced": lambda row: f"{call_row(row)} on link {row.link.number} of subchannel {row.sub.number}",
    "AttemptEnds": ended_words,
    "CallCommitted": lambda row: f"call {row.call.number} to {attempt_name(row)}: {COMMITS[row.committed.cause]}",
    "StreamReset": lambda row: f"RST_STREAM {name_in(ERRORS, row.reset[1])} for {call_row(row)}, stream {row.stream} of link {row.link.number}",
    "PolicyBegins": lambda generation: f"generation {generation.number}, {generation.kind}",
    "AddressesGiven": lambda generation, addresses: f"generation {generation.number}: {short(', '.join(addresses) or 'none', 100)}",
    "PolicyTakesOver": lambda generation: f"generation {generation.number}, {generation.kind}",
    "PolicyRetired": lambda generation: f"generation {generation.number}, {generation.kind}",
    "SubchannelAdded": lambda sub: f"subchannel {sub.number}, {sub.address}",
    "SubchannelShut": lambda sub, state: f"subchannel {sub.number}, {sub.address}",
    "SubchannelConnects": lambda sub, state: f"subchannel {sub.number}, {sub.address}: IDLE to CONNECTING",
    "DialTaken": lambda sub, again, until: f"subchannel {sub.number}, {sub.address}; given up at {until}, the next not before {again}",
    "DialFails": lambda sub, state: f"subchannel {sub.number}, {sub.address}: {state}",
    "ConnectTimesOut": lambda sub, state: f"subchannel {sub.number}, {sub.address}: {state}",
    "BackoffEnds": lambda sub, state: f"subchannel {sub.number}, {sub.address}: {state}",
    "LinkUp": lambda link: f"link {link.number} of subchannel {link.sub.number}, {link.sub.address}",
    "SettingsArrive": lambda sub, state: f"subchannel {sub.number}, {sub.address}: {state}",
    "LinkDown": lambda sub, state: f"subchannel {sub.number}, {sub.address}: {state}",
    "BytesArrive": lambda link, size: f"link {link.number}, {size:,} bytes",
    "FrameRead": lambda link, kind, stream, size: f"link {link.number}: {frame_name(kind)}"
    + (f", stream {stream}" if stream else "")
    + f", {size:,} bytes",
    "LinkBreaks": lambda link, code: f"link {link.number}: {name_in(ERRORS, code)}",
    "LinkLost": lambda link: f"link {link.number}",
    "PingQueued": lambda link: f"link {link.number}",
    "FrameWritten": lambda link, kind, stream, size: f"link {link.number}: {frame_name(kind)}"
    + (f", stream {stream}" if stream else "")
    + f", {size:,} bytes",
    "ChannelShuts": lambda: "",
}


def action_words(action):
    kind, *things = action
    words = WORDS[kind](*things)
    return f"{kind}: {words}" if words else kind


def concerns(action, call):
    """Whether an action is about this call."""
    return any(thing is call or getattr(thing, "call", None) is call for thing in action[1:])


def action_lines(channel, call, first, last):
    """Each entry from `first` to `last` with its actions; of one call, those entries and actions that concern it."""
    wire, report = Wire(), channel.report
    streams = {(row.link.number, row.stream) for row in call.rows if row.stream} if call else None
    for entry in range(1, last + 1):
        parts = wire.entry(report.lines[entry])
        actions = channel.log.get(entry, ())
        if call:
            parts = of_streams(parts, int(report.lines[entry].split(" ", 4)[3]), streams) if parts[1] else parts
            actions = [action for action in actions if concerns(action, call)]
        if entry < first or (call and not actions):
            continue
        yield f"line {report.line_of_entry(entry)}  {after_begin(channel.moments[entry - 1] - channel.first_moment)}  {entry_text(parts)}"
        yield from (f"    {action_words(action)}" for action in actions)
