"""What happened to one call, step by step, each with the entry that shows it."""

from .names import CODES, count, duration, tokens
from .why import attempt_name, attempt_names, codes_words, others_cut, short_what


def steps_of(channel, call):
    """Steps in the order of the entries: (entry, words)."""
    steps = begin_steps(channel, call)
    for row in call.rows:
        steps += made_steps(channel, call, row)
        steps += row_steps(channel, call, row)
    if call.withheld:
        stamp, due, left = call.withheld
        steps.append(
            (
                stamp.entry,
                f"the next hedge was due, and throttling withheld it for good: {tokens(left)} of {tokens(call.run.start)} tokens "
                f"were left, and more than half ({tokens(call.run.start // 2)}) are needed",
            )
        )
    if call.full and call.full.entry:
        steps.append((call.full.entry, "a message was not taken: the call held back too many bytes (the reply says how many)"))
    if call.end and call.end.cause != "row":
        steps.append((call.end.entry, end_words(call)))
    return merged(sorted(steps, key=lambda step: step[0]))


def merged(steps):
    """Steps of one entry in one sentence."""
    together = []
    for entry, words in steps:
        if together and together[-1][0] == entry:
            together[-1] = (entry, together[-1][1] + "; " + words)
        else:
            together.append((entry, words))
    return together


def begin_steps(channel, call):
    how = {"yes": ", and waits for ready", "no": ", and does not wait for ready"}.get(call.wait, "")
    limit = f", with a timeout of {duration(call.timeout)}" if call.timeout is not None else ""
    steps = [(call.entry, f"the application begins the call{limit}{how}")]
    if call.configured and call.configured != call.entry:
        steps.append((call.configured, f"it gets its configuration, {duration(call.configured_at - call.moment)} after it began"))
    return steps


def end_words(call):
    code = CODES[call.end_code()]
    return {
        "deadline": f"the deadline comes, and the call ends with {code}",
        "cancelled": f"the application cancels the call: {code}",
        "shut": f"the channel is shut down, and the call ends with {code}",
        "noconfig": f"no valid config can be had, and the call ends with {code}",
        "request": f"a message above its limit ends the call with {code}",
        "response": f"a message above its limit ends the call with {code}",
    }[call.end.cause]


def made_steps(channel, call, row):
    """Why the attempt was made, and where it went."""
    steps = []
    before = call.rows[call.rows.index(row) - 1] if row.kind != "first" else None
    if row.kind == "transparent":
        prior = next(other for other in reversed(call.rows[: call.rows.index(row)]) if other.number == row.number)
        what = "nothing was sent" if prior.end.cause == "unsent" else short_what(prior)
        words = f"no server saw {attempt_name(prior)} ({what}), so it is made again at once"
        steps.append((row.made.entry, words + "; such a transparent retry counts as no attempt and takes no token"))
    elif row.kind == "retry":
        steps.append((last_ended(call, row).end.entry, retry_words(call, row)))
    elif row.kind == "hedge":
        steps.append((row.made.entry, hedge_words(call, row)))
    if row.placed and row.placed.entry != row.made.entry:
        wait = row.placed.moment - row.made.moment
        when = (
            f", {duration(wait)} after it was due: before that the channel had no link for it"
            if wait
            else ", as soon as the channel had a link for it"
        )
        steps.append((row.placed.entry, f"{attempt_name(row)} is placed on link {row.link.number} ({row.sub.address}){when}"))
    return steps


def last_ended(call, row):
    """The counted end that licensed a retry: that of the number before."""
    return next(other for other in call.rows if other.number == row.number - 1 and other.end and other.end.is_counted)


def retry_words(call, row):
    before, plan = last_ended(call, row), call.plan
    end = before.end
    left = f", {tokens(end.tokens)} of {tokens(call.run.start)} tokens are left, more than half" if call.run else ""
    made = f"{before.number} of {plan.attempts} attempts {'is' if before.number == 1 else 'are'} made"
    words = f"{CODES[end.code]} is among the retryableStatusCodes, {made}{left}: attempt {row.number} is due "
    if end.pushback is not None:
        return words + (f"{end.pushback} ms later" if end.pushback else "at once") + ", as the server asked (grpc-retry-pushback-ms)"
    band = f"from {duration(end.cap - end.cap // 5)} to {duration(end.cap + end.cap // 5)}"
    return words + f"{duration(end.wait)} later, drawn {band} (backoff {duration(end.cap)})"


def hedge_words(call, row):
    """By the delay, or at once by an end, or after a pushback."""
    name = attempt_name(row)
    ended = [
        other
        for other in call.rows
        if other.end and other.end.is_counted and other.number < row.number and other.end.entry <= row.made.entry
    ]
    for other in reversed(sorted(ended, key=lambda other: other.end.moment)):
        if other.end.pushback not in (None, "stop") and other.end.moment + other.end.pushback * 10**6 == row.due:
            return f"{name} is due {other.end.pushback} ms after the end of {attempt_name(other)}, as the server asked (grpc-retry-pushback-ms)"
        if other.end.pushback is None and other.end.moment == row.due and other.end.code in call.codes:
            return f"{CODES[other.end.code]} of {attempt_name(other)} is among the nonFatalStatusCodes, so {name} is due at once"
    if call.plan.delay == 0:
        return f"{name} is due as soon as attempt {row.number - 1} was placed, since there is no hedgingDelay"
    return f"{name} is due, {duration(call.plan.delay)} (hedgingDelay) after attempt {row.number - 1} was placed"


def row_steps(channel, call, row):
    steps = []
    if row.committed and row.committed.cause != "final":
        steps.append((row.committed.entry, commit_words(call, row)))
    if row.end and row.end.cause != "cut":
        steps.append((row.end.entry, f"{attempt_name(row)} ends: {came(row)}"))
        if row.committed and row.committed.cause == "final":
            steps.append((row.committed.entry, commit_words(call, row)))
    elif row.end and row.end.entry != getattr(call.committed and call.committed.committed, "entry", None):
        steps.append((row.end.entry, f"{attempt_name(row)} is cut"))
    return steps


def commit_words(call, row):
    cut = [other for other in others_cut(call, row) if other.end.entry == row.committed.entry]
    rest = f", and {attempt_names(cut)} {'is' if len(cut) == 1 else 'are'} cut" if cut else ""
    how = {
        "head": "the head of {} comes, so the call is committed to it",
        "overflow": "the messages pass 262,144 bytes, so the call is committed to {}, which was sent furthest",
        "handed": "the call was committed before, and goes on with {}",
        "final": "that is the call's end",
    }[row.committed.cause]
    return how.format(attempt_name(row)) + rest


def came(row):
    """What came of an attempt, for the table and the steps."""
    end = row.end
    if end is None:
        if row.placed is None:
            return "waits for a link" if row.call.end is None and (row.call.committed in (None, row)) else "dropped: it was never placed"
        if row.sent is None:
            return "waits on its link, not sent"
        return f"head, {count(row.messages, 'message')}, no end" if row.head else "no answer yet"
    words = {
        "status": CODES[end.code],
        "http": f"HTTP {end.detail if end.detail is not None else 'without a status'}, so {CODES[end.code]}",
        "framing": f"broken response, so {CODES[end.code]}: {end.detail}",
        "lost": "the link was lost: UNAVAILABLE",
        "goaway": "left out by GOAWAY: UNAVAILABLE",
        "unsent": "its link was gone before anything was sent",
        "pick": "no link: the channel was in TRANSIENT_FAILURE",
        "cut": cut_words(row),
        "reset": f"{short_what(row)}, so {CODES[end.code]}",
    }[end.cause]
    if end.text:
        words += f': "{end.text}"'
    if end.cause == "status" and end.code == 0:
        words += f", {count(row.messages, 'message')}"
    if end.pushback is not None:
        words += ", pushback: no retry" if end.pushback == "stop" else f", pushback {end.pushback} ms"
    return words


def cut_words(row):
    call = row.call
    if call.end and call.end.entry == row.end.entry and call.end.cause != "row":
        return {"deadline": "cut at the deadline", "cancelled": "cut: cancelled", "shut": "cut: the channel was shut down"}.get(
            call.end.cause, "cut: a message above its limit"
        )
    return f"cut: the call was committed to attempt {call.committed.number}" if call.committed else "cut"


def policy_words(call):
    """The plan of a call in a line."""
    plan = call.plan
    if call.configured is None:
        return "none yet: it got no configuration"
    if plan is None:
        return "none: one attempt"
    if plan.kind == "retry":
        return (
            f"retry: up to {plan.attempts} attempts, {duration(plan.initial)} x {tokens(plan.multiplier)} up to {duration(plan.longest)}, "
            f"on {codes_words(plan.codes)}"
        )
    codes = f"goes on after {codes_words(plan.codes)}" if plan.codes else "each code is fatal"
    return (
        f"hedge: up to {plan.attempts} attempts, one each {duration(plan.delay)}, {codes}"
        if plan.delay
        else f"hedge: up to {plan.attempts} attempts at once, {codes}"
    )


def source_words(call):
    """Which entry of the config gave it."""
    if call.name is None:
        return "no entry of methodConfig is for it" if call.configured else ""
    service, method = call.name
    return f"methodConfig[{call.method.place}], " + (
        f"method {service}/{method}" if method else f"service {service}" if service else "the default"
    )


def throttle_words(run):
    if run is None:
        return "none"
    half = tokens(run.start // 2)
    return f"{tokens(run.start)} tokens, {tokens(run.ratio)} back for each success; no retry or hedge at {half} or below"
