"""A service config for people: what it says of a path, and what is read in it but surely not meant."""

import difflib
import re
import sys

from .attempts import capped
from .config import KINDS, MOST_MESSAGE, ConfigFault, Number, read_config, tree_of
from .names import count, duration, tokens
from .why import codes_words

FIELDS = {
    "": ("loadBalancingConfig", "loadBalancingPolicy", "methodConfig", "retryThrottling"),
    "methodConfig": (
        "name",
        "waitForReady",
        "timeout",
        "maxRequestMessageBytes",
        "maxResponseMessageBytes",
        "retryPolicy",
        "hedgingPolicy",
    ),
    "name": ("service", "method"),
    "retryPolicy": ("maxAttempts", "initialBackoff", "maxBackoff", "backoffMultiplier", "retryableStatusCodes"),
    "hedgingPolicy": ("maxAttempts", "hedgingDelay", "nonFatalStatusCodes"),
    "retryThrottling": ("maxTokens", "tokenRatio"),
}
ELSEWHERE = {"perAttemptRecvTimeout": "it is not supported"}


def unknown_fields(value, kind, path):
    """Fields of an object that are passed over, with the name that was perhaps meant."""
    known = FIELDS[kind]
    for key in value:
        if key in known:
            continue
        plain = {re.sub("[^a-z]", "", name.lower()): name for name in known}
        near = difflib.get_close_matches(re.sub("[^a-z]", "", key.lower()), plain, 1, 0.75)
        hint = f" ({plain[near[0]]}?)" if near else f" ({ELSEWHERE[key]})" if key in ELSEWHERE else ""
        yield f"{path + '.' if path else ''}{key}: no field of that name; it is passed over{hint}"


def warnings_of(tree, config):
    """What is read but surely not meant. The config has no fault."""
    yield from unknown_fields(tree, "", "")
    yield from policy_warnings(tree, config)
    for place, entry in enumerate(tree.get("methodConfig", [])):
        path = f"methodConfig[{place}]"
        yield from unknown_fields(entry, "methodConfig", path)
        if not entry.get("name"):
            yield f"{path}: it has no name, so no call gets it; {{}} is the name of the default"
        for at, name in enumerate(entry.get("name", [])):
            yield from unknown_fields(name, "name", f"{path}.name[{at}]")
            yield from name_warnings(name, f"{path}.name[{at}]")
        for key in ("maxRequestMessageBytes", "maxResponseMessageBytes"):
            if key in entry and int(entry[key]) > MOST_MESSAGE:
                yield f"{path}.{key}: {int(entry[key]):,} counts as {MOST_MESSAGE:,}, the greatest message"
        for key in ("retryPolicy", "hedgingPolicy"):
            if key in entry:
                yield from plan_warnings(entry, key, f"{path}.{key}")
    if "retryThrottling" in tree:
        yield from unknown_fields(tree["retryThrottling"], "retryThrottling", "retryThrottling")
        yield from dropped_digits(tree["retryThrottling"]["tokenRatio"], "retryThrottling.tokenRatio")


def policy_warnings(tree, config):
    if "loadBalancingConfig" not in tree:
        return
    for place, item in enumerate(tree["loadBalancingConfig"]):
        kind = next(iter(item))
        if kind == config.kind:
            if place + 1 < len(tree["loadBalancingConfig"]):
                yield f"loadBalancingConfig[{place + 1}]: it is passed over; {kind} stands before it"
            break
        near = difflib.get_close_matches(kind.lower(), KINDS, 1, 0.75)
        yield f'loadBalancingConfig[{place}]: no policy "{kind}"; it is passed over' + (f" ({near[0]}?)" if near else "")
    if "loadBalancingPolicy" in tree:
        yield "loadBalancingPolicy: it is passed over, since there is a loadBalancingConfig"


def name_warnings(name, path):
    service, method = name.get("service", ""), name.get("method", "")
    if "/" in service:
        better = service.strip("/").split("/")[0]
        how = "begins with a slash" if service.startswith("/") else "has a slash"
        yield f'{path}.service: "{service}" {how}: no call has it' + (f" ({better}?)" if better else "")
    if "/" in method:
        how = "begins with a slash" if method.startswith("/") else "has a slash"
        yield f'{path}.method: "{method}" {how}: no call has it ({method.strip("/").split("/")[-1]}?)'
    for key, text in (("service", service), ("method", method)):
        if text != text.strip() or text == "*":
            yield f'{path}.{key}: "{text}" is taken word by word: no call has it' + (
                " (leave the field out for all)" if text == "*" else ""
            )


def plan_warnings(entry, key, path):
    policy = entry[key]
    yield from unknown_fields(policy, key, path)
    if len(policy["maxAttempts"]) > 1 or int(policy["maxAttempts"]) > 5:
        yield f"{path}.maxAttempts: {policy['maxAttempts']} counts as 5"
    if key == "hedgingPolicy":
        if not policy.get("nonFatalStatusCodes"):
            yield f"{path}.nonFatalStatusCodes: no code, so the first error of an attempt ends the call"
        return
    yield from dropped_digits(policy["backoffMultiplier"], f"{path}.backoffMultiplier")
    initial, longest = seconds(policy["initialBackoff"]), seconds(policy["maxBackoff"])
    if initial > longest:
        yield f"{path}.maxBackoff: {policy['maxBackoff']} is below the initialBackoff, so each wait is drawn about {policy['maxBackoff']}"
    if "timeout" in entry and seconds(entry["timeout"]) < min(initial, longest) * 0.8:
        yield f"{path}.initialBackoff: the timeout of {entry['timeout']} ends before the first retry is due"


def dropped_digits(number, path):
    if isinstance(number, Number) and len(number.partition(".")[2].rstrip("0")) > 3:
        yield f"{path}: {number} counts as {number.partition('.')[0]}.{number.partition('.')[2][:3]}; three decimals count"


def seconds(text):
    return float(text[:-1])


def range_words(plan, retries):
    cap = capped(plan, retries)
    return f"{duration(cap - cap // 5)} to {duration(cap + cap // 5)}"


def plan_lines(method):
    """The attempts of an entry, and their waits."""
    plan = method.plan
    if plan is None:
        return [("attempts", "one: neither a retryPolicy nor a hedgingPolicy")]
    if plan.kind == "hedge":
        rest = f"goes on after {codes_words(plan.codes)}" if plan.codes else "each code is fatal"
        times = ", ".join(
            "at once" if number == 0 or not plan.delay else f"at {duration(number * plan.delay)}" for number in range(plan.attempts)
        )
        return [
            ("hedge", f"up to {plan.attempts} attempts, {rest}"),
            ("sent", times + (", or as soon as one before it ends so" if plan.codes and plan.delay else "")),
        ]
    caps = [capped(plan, number) for number in range(1, plan.attempts)]
    worst = sum(cap + cap // 5 for cap in caps)
    return [
        ("retry", f"up to {plan.attempts} attempts, on {codes_words(plan.codes)}"),
        (
            "waits",
            ", ".join(range_words(plan, number) for number in range(1, plan.attempts)) + f"   (backoff at most {duration(plan.longest)})",
        ),
        ("at worst", f"{duration(worst)} of waits, where the server asks for none (grpc-retry-pushback-ms)"),
    ]


def advice_lines(config, path):
    """What a path gets."""
    method, name = config.choose(path)
    if name is None:
        lines = [f"{path}  by no entry of methodConfig"]
    else:
        how = f"method {name[0]}/{name[1]}" if name[1] else f"service {name[0]}" if name[0] else "the default"
        lines = [f"{path}  by methodConfig[{method.place}] ({how})"]
    facts = plan_lines(method)
    facts.append(
        (
            "deadline",
            duration(method.timeout) + ", or the application's where that is shorter"
            if method.timeout is not None
            else "none but the application's: a call that no server answers waits for ever",
        )
    )
    if method.wait is not None:
        facts.append(
            (
                "waits for",
                "ready, unless the application says otherwise"
                if method.wait
                else "nothing: it fails at once where no server can be reached",
            )
        )
    for field, words in ((method.request, "request"), (method.response, "response")):
        if field is not None:
            facts.append((words, f"messages of at most {min(field, MOST_MESSAGE):,} bytes"))
    facts.append(("throttle", throttle_text(config)))
    facts.append(("policy", config.kind))
    return lines + [f"  {key:<10}{words}" for key, words in facts]


def throttle_text(config):
    if config.throttle is None:
        return "none"
    start, ratio = config.throttle
    return f"{tokens(start)} tokens, one for each failure, {tokens(ratio)} back for each success; no retry or hedge at {tokens(start // 2)} or below"


def names_lines(config):
    """Each name of a config, and what its calls get."""
    lines = [f"{count(len(config.names), 'name')}, {config.kind}, throttling: {throttle_text(config)}"]
    for service, method in config.names:
        entry = config.names[service, method]
        shown = "the default" if not service else f"/{service}/{method or '*'}"
        plan = entry.plan
        what = "one attempt" if plan is None else f"{plan.kind}, up to {plan.attempts} attempts"
        limit = duration(entry.timeout) if entry.timeout is not None else "none"
        lines.append(f"  {shown}  {what}, deadline {limit}")
    return lines


def config_lines(name, path):
    """Prints what the config of a file says of a path; the status."""
    shown = "standard input" if name == "-" else name
    try:
        if name == "-":
            data = sys.stdin.buffer.read()
        else:
            with open(name, "rb") as file:
                data = file.read()
    except OSError as fault:
        print(f"error: {shown}: {fault.strerror}", file=sys.stderr)
        return 1
    if path is not None and not re.fullmatch(r"/[!-.0-~]+/[!-.0-~]+", path):
        print(f"error: '{path}' is no path; it takes /service/method, as /helloworld.Greeter/SayHello", file=sys.stderr)
        return 2
    try:
        config = read_config(data)
    except ConfigFault as fault:
        print(f"error: {shown}: {fault}", file=sys.stderr)
        return 1
    for line in advice_lines(config, path) if path else names_lines(config):
        print(line)
    for words in warnings_of(tree_of(data), config):
        print(f"warning: {words}")
    return 0
