"""Why a call ended as it did: the rule that decided, in the terms of gRFC A6, with the entries that show it."""

from .names import CODES, ERRORS, count, duration, listed, name_in, ordinal, tokens
from .session import CONNECTING, FAILURE, READY

A6 = "gRFC A6"


class Why:
    """A key that names the rule, a clause, a sentence, and the entries that show it."""

    def __init__(self, key, clause, words=None, entries=()):
        self.key, self.clause, self.words = key, clause, words or clause
        self.entries = [entry for entry in entries if entry]


def codes_words(codes):
    return listed([CODES[code] for code in sorted(codes)]) if codes else "it names none"


def by_what(row):
    """What ended an attempt, as a clause about the server or the link."""
    end, name = row.end, CODES[row.end.code]
    if end.cause == "http":
        status = f"HTTP status {end.detail}" if end.detail is not None else "no HTTP status"
        return f"the server answered without a grpc-status ({status}), which counts as {name}"
    if end.cause == "reset":
        return f"the server reset the stream ({name_in(ERRORS, end.detail)}), which counts as {name}"
    if end.cause == "framing":
        return f"the response broke the rules of the wire ({end.detail}), which counts as {name}"
    number = row.link.number if row.link else None
    return {
        "status": f"the server answered {name}",
        "lost": f"link {number} was lost after the request was sent, which counts as {name}",
        "goaway": f"the GOAWAY of link {number} leaves its stream out, which counts as {name}",
        "unsent": "its link was gone before anything was sent",
        "pick": "the channel was in TRANSIENT_FAILURE, and the call does not wait for ready",
        "cut": "the client cut it",
    }[end.cause]


def why_of(channel, call):
    """The rule that ended a call, or what an open one waits for."""
    if call.end is None:
        return open_why(channel, call)
    cause = call.end.cause
    if cause == "row":
        return answered_why(call) if call.committed.end.code == 0 else failed_why(channel, call)
    at = [call.end.entry]
    if cause == "deadline":
        clause, what, entries = waited_for(channel, call)
        limit = duration(call.deadline - call.moment)
        return Why(
            "deadline",
            f"deadline of {limit}; {clause}",
            f"the deadline of {limit} ({deadline_source(call)}) came while {what}",
            entries + at,
        )
    if cause == "cancelled":
        clause, what, entries = waited_for(channel, call)
        return Why("cancelled", f"cancelled by the application; {clause}", f"the application cancelled the call while {what}", entries + at)
    if cause == "shut":
        clause, what, entries = waited_for(channel, call)
        return Why("shut", f"the channel was shut down; {clause}", f"the channel was shut down while {what}", entries + at)
    if cause == "noconfig":
        return noconfig_why(channel, call)
    return too_long_why(call, cause)


def deadline_source(call):
    by_config = call.method.timeout if call.method else None
    return "its config's" if by_config is not None and (call.timeout is None or by_config < call.timeout) else "the application's"


def too_long_why(call, cause):
    limit, default = (call.request if cause == "request" else call.response), 4194304
    field = "maxRequestMessageBytes" if cause == "request" else "maxResponseMessageBytes"
    source = f"{field} of its methodConfig" if limit < default else "the channel's greatest message"
    what = f"a message of {count(call.too_long[2], 'byte')}" if cause == "request" else "a message of the response"
    words = f"{what} is above the limit of {count(limit, 'byte')} ({source})"
    return Why(cause, f"{what} is above the limit of {count(limit, 'byte')}", words, [call.too_long[0].entry])


def noconfig_why(channel, call):
    stamp, reply = next(((stamp, reply) for stamp, reply in reversed(channel.results) if stamp.entry <= call.end.entry), (None, None))
    what = "the resolver failed" if reply == "unresolved" else f"the resolver's config has a fault ({reply})"
    words = (
        f"{what}, and no valid config was ever given, so a call that does not wait for ready ends at once: no server ever saw it. "
        "Mend the config or the name, or let the call wait (wait for ready: yes)"
    )
    return Why("noconfig", f"{what}, and no valid config was there", words, [stamp.entry if stamp else None, call.end.entry])


# ---- calls that an attempt ended


def others_cut(call, winner):
    return [row for row in call.rows if row is not winner and row.end and row.end.cause == "cut"]


def answered_why(call):
    row, cut = call.committed, others_cut(call, call.committed)
    entries = [row.committed.entry, row.end.entry]
    if cut:
        names = attempt_names(cut)
        how = "its head came first" if row.committed.cause == "head" else "its answer came first"
        when = duration(row.committed.moment - call.moment)
        return Why(
            "won",
            f"{attempt_name(row)} won after {when}, {names} cut",
            f"{attempt_name(row)} won: {how}, so the call was committed to it ({A6}) and "
            f"{names} {'was' if len(cut) == 1 else 'were'} cut, {when} after the call began",
            entries,
        )
    if row.number == 1 and row.kind != "transparent":
        return Why("answered", "the first attempt was answered OK", None, entries)
    return Why("answered", f"{attempt_name(row)} was answered OK", None, entries)


def attempt_names(rows):
    """attempt 1; attempts 1, 3 and 4."""
    return attempt_name(rows[0]) if len(rows) == 1 else "attempts " + listed([str(row.number) for row in rows])


def attempt_name(row):
    return f"attempt {row.number}" + ("" if row.kind == "first" else f" ({row.kind})")


def failed_why(channel, call):
    """Why the end of an attempt was the call's, and no further attempt was made."""
    row = call.committed
    what, entries = by_what(row), [row.end.entry]
    if row.end.cause == "pick":
        what, entries = no_server_words(channel, call, row)
    elif row.end.is_unseen and call.is_refusal_followed:
        what += "; such an attempt is made again transparently once a call, and that was done"
    key, clause, rule, more = no_further(call, row)
    if row.end.cause == "pick" and key == "no-policy":
        return Why("no-server", "no server reached: the channel was in TRANSIENT_FAILURE", what, entries)
    return Why(key, f"{short_what(row)}; {clause}", f"{what}; {rule}" if rule else what, entries + more)


def short_what(row):
    end = row.end
    if end.cause == "reset":
        return f"reset {name_in(ERRORS, end.detail)}"
    return {
        "status": CODES[end.code],
        "pick": "no link: TRANSIENT_FAILURE",
        "lost": "link lost",
        "goaway": "GOAWAY",
        "http": f"HTTP {end.detail}",
        "framing": "broken response",
    }.get(end.cause, end.cause)


def no_further(call, row):
    """The rule by which there was no further attempt: its key, a clause, a sentence, and entries."""
    plan, end, how = call.plan, row.end, row.committed.cause
    if how in ("head", "handed") or (how == "overflow"):
        return committed_rule(call, row, how)
    if plan is None:
        where = no_policy_words(call)
        return "no-policy", "no retry policy", f"{where}, so the end of its one attempt is the call's", []
    if end.code not in plan.codes:
        field = "retryableStatusCodes" if plan.kind == "retry" else "nonFatalStatusCodes"
        verb = "is not retried" if plan.kind == "retry" else "is fatal to a hedged call"
        return (
            "code",
            f"{CODES[end.code]} {verb}",
            f"{CODES[end.code]} is not among the {field} ({codes_words(plan.codes)}), so that answer is the call's",
            [],
        )
    return hedged_rule(call, row) if plan.kind == "hedge" else retried_rule(call, row)


def committed_rule(call, row, how):
    at = [row.committed.entry]
    if call.plan is None:
        return "no-policy", "no retry policy", f"{no_policy_words(call)}, so the end of its one attempt is the call's", []
    if how == "head":
        return (
            "committed",
            "its head had come: committed",
            f"its head had come before, which commits the call to it ({A6}): no other attempt is made",
            at,
        )
    return (
        "committed",
        "committed by its buffer",
        (
            "its messages had passed the 262,144 bytes that are kept for further attempts, which commits the call "
            f"({A6}): no other attempt is made"
        ),
        at,
    )


def no_policy_words(call):
    if call.name is None:
        return f"no entry of methodConfig is for {call.path}, and there is no default"
    return f"its entry (methodConfig[{call.method.place}]) has neither a retryPolicy nor a hedgingPolicy"


def left_words(call, count_now):
    return f"{tokens(count_now)} of {tokens(call.run.start)} tokens left"


def throttle_rule(call, count_now):
    return (
        f"{tokens(count_now)} of {tokens(call.run.start)} tokens were left, and more than half ({tokens(call.run.start // 2)}) are needed"
    )


def retried_rule(call, row):
    plan, end = call.plan, row.end
    if end.pushback == "stop":
        return (
            "pushback",
            "the server said: no retry",
            f"its grpc-retry-pushback-ms says that no retry may follow ({A6}: pushback), so that answer is the call's",
            [],
        )
    if row.number >= plan.attempts:
        all_of = f"all {plan.attempts} attempts" if plan.attempts > 1 else "the attempt"
        return (
            "attempts",
            f"{all_of} used",
            f"the policy allows {plan.attempts} attempts and this was the last, so its answer is the call's",
            [],
        )
    return (
        "throttled",
        f"throttled, {left_words(call, end.tokens)}",
        f"the policy allows {plan.attempts} attempts, but throttling forbade another one: {throttle_rule(call, end.tokens)}",
        [],
    )


def hedged_rule(call, row):
    plan, end = call.plan, row.end
    made = call.attempts()
    counted = [other for other in call.rows if other.end and other.end.is_counted]
    stopped = next((other for other in counted if other.end.pushback == "stop"), None)
    if call.withheld:
        stamp, _, left = call.withheld
        return (
            "throttled",
            f"throttled, {left_words(call, left)}",
            f"the policy allows {plan.attempts} attempts, but throttling withheld the {ordinal(made + 1)}: {throttle_rule(call, left)}",
            [stamp.entry],
        )
    if stopped and made < plan.attempts:
        return (
            "pushback",
            "the server said: no more hedges",
            (
                f"the grpc-retry-pushback-ms of {attempt_name(stopped)} says that no further attempt may follow "
                f"({A6}: pushback), and no other attempt ran"
            ),
            [stopped.end.entry],
        )
    if made >= plan.attempts:
        return (
            "attempts",
            f"all {plan.attempts} attempts used",
            f"the policy allows {plan.attempts} attempts, all of them had ended, and this was the last to end",
            [],
        )
    return (
        "throttled",
        f"throttled, {left_words(call, end.tokens)}",
        f"the policy allows {plan.attempts} attempts, but throttling forbade another one: {throttle_rule(call, end.tokens)}",
        [],
    )


# ---- no server reached, and calls that waited


def dials_words(channel, call, entry):
    """What became of each subchannel up to an entry: its last failure since it was READY, else its state."""
    words, entries = [], []
    for sub in (sub for sub in channel.subs if sub.states[0][0].entry <= entry):
        state, why, stamp = state_at(sub, entry)
        if state == "SHUTDOWN":
            continue
        failure = last_failure(sub, entry)
        if failure:
            now = "" if state == FAILURE else f", and is {state} now"
            words.append(f"{sub.address}: {failure[2]} {since(call, failure[0])}{now}")
            entries.append(failure[0].entry)
        else:
            words.append(f"{sub.address} {connecting_words(call, sub, stamp, entry) if state == CONNECTING else f'is {state} ({why})'}")
            entries.append(stamp.entry)
    return words, entries


def connecting_words(call, sub, stamp, entry):
    """How far a subchannel is that connects."""
    tries = [item for item in sub.tries if stamp.entry <= item[0].entry <= entry]
    if not tries:
        return "waits to be dialled"
    begun, _, result = tries[-1]
    if result and result.entry <= entry:
        return f"was connected {since(call, result)}, and its server has sent no SETTINGS yet"
    return f"is being dialled, since {since(call, begun)}"


def last_failure(sub, entry):
    """The last change to TRANSIENT_FAILURE since the subchannel was READY, or None."""
    for item in reversed(sub.states):
        if item[0].entry <= entry and item[1] in (FAILURE, READY):
            return item if item[1] == FAILURE else None
    return None


def since(call, stamp):
    """When something was, by the call's begin."""
    time = stamp.moment - call.moment
    return "as the call began" if time == 0 else f"{duration(abs(time))} {'after' if time > 0 else 'before'} the call began"


def state_at(sub, entry):
    stamp, state, why = next(item for item in reversed(sub.states) if item[0].entry <= entry)
    return state, why, stamp


def no_server_words(channel, call, row):
    words, entries = dials_words(channel, call, row.end.entry)
    where = "; ".join(words[:4]) if words else "the resolver gave no address"
    more = f"; {len(words) - 4} more" if len(words) > 4 else ""
    seen = "no server ever saw it" if not any(other.sent for other in call.rows) else "this attempt reached no server"
    return (
        f"{where}{more}. So the channel was in TRANSIENT_FAILURE, and a call that does not wait for ready fails at once: {seen}. "
        'To let it wait, say so when it begins (wait for ready: yes), or "waitForReady": true in its methodConfig'
    ), entries[:4] + [row.end.entry]


def waited_for(channel, call):
    """What a call was waiting for when something outside ended it (or at the end of the session): a clause, words, and entries."""
    entry = call.end.entry if call.end else channel.report.entries
    waits, has = ("waited", "had") if call.end else ("waits", "has")
    if call.configured is None:
        if not channel.results or channel.results[0][0].entry > entry:
            words = f"it {waits} for the resolver, which {has} not answered"
            return words, words, []
        words = f"it {waits} for a valid service config, and the resolver gave none"
        return words, words, [channel.results[-1][0].entry]
    running = [row for row in call.rows if row.placed and (row.end is None or (row.end.cause == "cut" and row.end.entry == entry))]
    if running:
        words, entries = running_words(call, running, waits, has)
        return words, words, entries
    queued = [row for row in call.rows if row.placed is None and row.end is None]
    if queued and (call.committed is None or call.committed in queued):
        return queued_words(channel, call, queued[-1], entry, waits)
    last = call.last_counted
    if last is None:
        return "no attempt was running", "no attempt was running", []
    due = channel.next_due(call) if call.end is None else None
    wait = (
        due - last.end.moment
        if due is not None
        else last.end.pushback * 10**6
        if last.end.pushback not in (None, "stop")
        else last.end.wait
    )
    then = f", and the next one {'is' if call.end is None else 'was'} due {duration(wait)} after it" if wait is not None else ""
    words = f"{attempt_name(last)} {has} ended with {CODES[last.end.code]}{then}"
    return words, words, [last.end.entry]


def running_words(call, rows, waits, has):
    words, entries = [], []
    for row in rows:
        if row.sent is None:
            most = row.link.most
            why = (
                f"its server allows {count(most, 'stream')} at a time"
                if most is not None and row.link.most_seen >= most
                else f"its request {'was' if call.end else 'is'} not sent yet"
            )
            words.append(f"{attempt_name(row)} {waits} on link {row.link.number}: {why}")
            entries.append(row.placed.entry)
        elif row.head is None:
            rest = " (not all of its request was sent)" if row.written < call.accepted else ""
            words.append(f"{attempt_name(row)} {waits} for its answer{rest}")
            entries.append(row.sent.entry)
        else:
            words.append(f"{attempt_name(row)} {has} its head and {count(row.messages, 'message')}, and no end")
            entries.append(row.head.entry)
    unfinished = "" if call.finished or any(row.sent is None for row in rows) else f"; the application {has} not finished its request"
    return listed(words) + unfinished, entries


def queued_words(channel, call, row, entry, waits):
    states = [(stamp, state) for stamp, state in channel.states if stamp.entry < entry] or channel.states[:1]
    stamp, state = states[-1]
    words, entries = dials_words(channel, call, entry - 1 if call.end else entry)
    why = ", and it waits for ready" if call.waits and state == FAILURE else ""
    where = f" ({'; '.join(words[:3])})" if words else " (the resolver gave no address)"
    clause = f"{attempt_name(row)} {waits} for a link: the channel {'was' if call.end else 'is'} {state}{why}"
    return clause, clause + where, [stamp.entry] + entries[:3]


def open_why(channel, call):
    clause, what, entries = waited_for(channel, call)
    limit = (
        "no deadline: without an answer it waits for ever"
        if call.deadline is None
        else f"its deadline is {duration(call.deadline - call.moment)}"
    )
    return Why("open", f"open: {clause}", f"the session ends with the call open: {what} ({limit})", entries)
