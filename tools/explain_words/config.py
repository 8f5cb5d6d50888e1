"""A service config as the channel reads it (docs/guide/CONFIG.md): which entry a path gets, and the first fault of a config."""

import json
import re
from dataclasses import dataclass, field

from .names import CODES

KINDS = ("pick_first", "round_robin", "priority")
MOST_MESSAGE, MOST_SIZE, MOST_BYTES = 4194304, 4294967295, 65536
DURATION = re.compile(r"([0-9]+)(?:\.([0-9]{1,9}))?s")
ABSENT = object()


class Number(str):
    """A number of the text as it is written."""


class ConfigFault(Exception):
    """The first fault: the path of the value, or the place in the text, and what is wanted there."""

    def __init__(self, path, words, kind=2):
        super().__init__(f"{path}: {words}" if path else words)
        self.path, self.words, self.kind = path, words, kind


@dataclass
class Retry:
    """retryPolicy; times in nanoseconds, the multiplier in thousandths."""

    attempts: int
    initial: int
    longest: int
    multiplier: int
    codes: frozenset
    kind: str = "retry"


@dataclass
class Hedge:
    """hedgingPolicy."""

    attempts: int
    delay: int
    codes: frozenset
    kind: str = "hedge"


@dataclass
class Method:
    """One entry of methodConfig."""

    place: int = -1
    wait: object = None
    timeout: object = None
    request: object = None
    response: object = None
    plan: object = None


@dataclass
class Config:
    """A whole config: the load balancing policy, the entry of each name, and the throttling (tokens and ratio, in thousandths)."""

    kind: str = "pick_first"
    names: dict = field(default_factory=dict)
    throttle: object = None
    chosen: dict = field(default_factory=dict)

    def choose(self, path):
        """The entry for a call's path and the name that it goes by: the method's, else the service's, else the default."""
        if path not in self.chosen:
            self.chosen[path] = self.choice(path)
        return self.chosen[path]

    def choice(self, path):
        service, method = path[1:].split("/") if path.count("/") == 2 else ("", "")
        for name in ((service, method), (service, ""), ("", "")):
            if name in self.names:
                return self.names[name], name
        return Method(), None


def clean(text):
    """A half of a surrogate pair without its other half reads as U+FFFD."""
    return re.sub("[\ud800-\udfff]", "\ufffd", text)


def strings_of(pairs):
    """An object of the text; no key stands twice."""
    seen = {}
    for key, value in pairs:
        key = clean(key)
        if key in seen:
            raise ConfigFault("", f'the key "{key}" stands twice in an object', 1)
        seen[key] = value
    return seen


def exact(text):
    if "e" in text or "E" in text:
        raise ConfigFault("", f"the number {text} has an exponent", 1)
    return Number(text)


def no_constant(text):
    raise ConfigFault("", f"{text} is no JSON", 1)


def depth_of(value):
    """How many levels a value has."""
    deepest, waiting = 0, [(value, 1)]
    while waiting:
        item, level = waiting.pop()
        if isinstance(item, (dict, list)):
            deepest = max(deepest, level)
            waiting += [(inner, level + 1) for inner in (item.values() if isinstance(item, dict) else item)]
    return deepest


def tree_of(data):
    """The JSON tree of the text."""
    if len(data) > MOST_BYTES:
        raise ConfigFault("", f"it has {len(data)} bytes; a config has at most {MOST_BYTES}", 1)
    try:
        text = data.decode("utf-8")
    except UnicodeDecodeError as fault:
        raise ConfigFault("", f"byte {fault.start} is no UTF-8", 1) from None
    try:
        tree = json.loads(text, object_pairs_hook=strings_of, parse_int=exact, parse_float=exact, parse_constant=no_constant)
    except json.JSONDecodeError as fault:
        raise ConfigFault("", f"line {fault.lineno}, column {fault.colno}: {fault.msg}", 1) from None
    except RecursionError:
        raise ConfigFault("", "it has more than 32 levels", 1) from None
    if not isinstance(tree, dict):
        raise ConfigFault("", "a config is one JSON object", 1)
    if depth_of(tree) > 32:
        raise ConfigFault("", "it has more than 32 levels", 1)
    return tree


def taken(value, kind, path, words):
    if not isinstance(value, kind) or (kind is str and isinstance(value, Number)):
        raise ConfigFault(path, words)
    return value


def nanos(value, path, is_positive=False):
    words = "it takes a duration" + (" above 0" if is_positive else "") + ', as "1.5s"'
    found = DURATION.fullmatch(value) if isinstance(value, str) and not isinstance(value, Number) else None
    if not found:
        raise ConfigFault(path, "missing; " + words if value is ABSENT else words)
    result = int(found.group(1)) * 10**9 + int((found.group(2) or "").ljust(9, "0"))
    if result > 10**18 or (is_positive and result == 0):
        raise ConfigFault(path, words)
    return result


def whole(value, least, most, path, words, may_be_text=False):
    is_good = isinstance(value, Number) or (may_be_text and isinstance(value, str))
    if not is_good or not re.fullmatch("[0-9]+", value):
        raise ConfigFault(path, "missing; " + words if value is ABSENT else words)
    digits = value.lstrip("0")
    result = int(digits or "0") if len(digits) < 40 else 10**39
    if result < least or (most is not None and result > most):
        raise ConfigFault(path, words)
    return result


def thousandths(value, most, path):
    words = f"it takes a number above 0 and at most {most:,}, and three decimals count"
    if not isinstance(value, Number) or value.startswith("-"):
        raise ConfigFault(path, "missing; " + words if value is ABSENT else words)
    units, _, decimals = value.partition(".")
    result = int(units[:12]) * 1000 + int(decimals[:3].ljust(3, "0"))
    if len(units) > 12 or result == 0 or result > most * 1000 or (result == most * 1000 and decimals.strip("0")):
        raise ConfigFault(path, words)
    return result


def codes_of(value, path, may_be_empty):
    words = 'it takes a list of codes, as ["UNAVAILABLE"]'
    if value is ABSENT and may_be_empty:
        return frozenset()
    taken(value, list, path, "missing; " + words if value is ABSENT else words)
    if not value and not may_be_empty:
        raise ConfigFault(path, "it takes one code at least")
    return frozenset(code_of(item, f"{path}[{place}]") for place, item in enumerate(value))


def code_of(item, path):
    if isinstance(item, Number) and re.fullmatch("[0-9]{1,2}", item) and 1 <= int(item) <= 16:
        return int(item)
    upper = item.upper() if isinstance(item, str) and item.isascii() and not isinstance(item, Number) else None
    if upper not in CODES[1:]:
        raise ConfigFault(path, "no code but OK has that name or number")
    return CODES.index(upper)


def attempts_of(policy, path):
    return min(5, whole(policy.get("maxAttempts", ABSENT), 2, None, f"{path}.maxAttempts", "it takes a whole number of at least 2"))


def retry_of(policy, path):
    taken(policy, dict, path, "it takes an object")
    initial = nanos(policy.get("initialBackoff", ABSENT), f"{path}.initialBackoff", True)
    longest = nanos(policy.get("maxBackoff", ABSENT), f"{path}.maxBackoff", True)
    attempts = attempts_of(policy, path)
    multiplier = thousandths(policy.get("backoffMultiplier", ABSENT), 1000000, f"{path}.backoffMultiplier")
    return Retry(
        attempts, initial, longest, multiplier, codes_of(policy.get("retryableStatusCodes", ABSENT), f"{path}.retryableStatusCodes", False)
    )


def hedge_of(policy, path):
    taken(policy, dict, path, "it takes an object")
    delay = nanos(policy.get("hedgingDelay", "0s"), f"{path}.hedgingDelay")
    attempts = attempts_of(policy, path)
    return Hedge(attempts, delay, codes_of(policy.get("nonFatalStatusCodes", ABSENT), f"{path}.nonFatalStatusCodes", True))


def names_of(entry, path):
    """The names of an entry: pairs of a service and a method, each with its path."""
    found = []
    for place, name in enumerate(taken(entry.get("name", []), list, f"{path}.name", "it takes a list of objects")):
        at = f"{path}.name[{place}]"
        taken(name, dict, at, "it takes an object")
        service = taken(name.get("service", ""), str, f"{at}.service", "it takes a string")
        method = taken(name.get("method", ""), str, f"{at}.method", "it takes a string")
        if method and not service:
            raise ConfigFault(f"{at}.method", "a method needs its service beside it")
        found.append(((clean(service), clean(method)), at))
    return found


def method_of(entry, place, config):
    """Reads one entry of methodConfig, and gives it to its names."""
    path = f"methodConfig[{place}]"
    taken(entry, dict, path, "it takes an object")
    names = names_of(entry, path)
    method = Method(place)
    method.wait = taken(entry["waitForReady"], bool, f"{path}.waitForReady", "it takes true or false") if "waitForReady" in entry else None
    method.timeout = nanos(entry["timeout"], f"{path}.timeout") if "timeout" in entry else None
    for key, short in (("maxRequestMessageBytes", "request"), ("maxResponseMessageBytes", "response")):
        if key in entry:
            setattr(method, short, whole(entry[key], 0, MOST_SIZE, f"{path}.{key}", f"it takes a whole number up to {MOST_SIZE:,}", True))
    retry = retry_of(entry["retryPolicy"], f"{path}.retryPolicy") if "retryPolicy" in entry else None
    hedge = hedge_of(entry["hedgingPolicy"], f"{path}.hedgingPolicy") if "hedgingPolicy" in entry else None
    if retry and hedge:
        raise ConfigFault(path, "it has both a retryPolicy and a hedgingPolicy", 3)
    method.plan = retry or hedge
    for name, at in names:
        if name in config.names:
            raise ConfigFault(at, "that name stands before", 4)
        config.names[name] = method


def kind_of(tree, kinds):
    """The load balancing policy that is chosen."""
    words = "it takes a list of objects with one key each"
    if "loadBalancingConfig" in tree:
        found = []
        for place, item in enumerate(taken(tree["loadBalancingConfig"], list, "loadBalancingConfig", words)):
            if not isinstance(item, dict) or len(item) != 1:
                raise ConfigFault(f"loadBalancingConfig[{place}]", "it takes an object with one key")
            found += item
    else:
        name = taken(tree.get("loadBalancingPolicy", "pick_first"), str, "loadBalancingPolicy", "it takes a string")
        found = [name.lower() if name.isascii() else name]
    for name in found:
        if name in kinds:
            return name
    raise ConfigFault("", f"no policy that it names is supported ({', '.join(found) or 'none'}); supported: {', '.join(kinds)}", 5)


def read_config(data, kinds=KINDS):
    """The config of a text, or its first fault."""
    tree = tree_of(data)
    config = Config(kind_of(tree, kinds))
    for place, entry in enumerate(taken(tree.get("methodConfig", []), list, "methodConfig", "it takes a list of objects")):
        method_of(entry, place, config)
    if "retryThrottling" in tree:
        throttle = taken(tree["retryThrottling"], dict, "retryThrottling", "it takes an object")
        most = whole(throttle.get("maxTokens", ABSENT), 1, 1000, "retryThrottling.maxTokens", "it takes a whole number from 1 to 1,000")
        config.throttle = (most * 1000, thousandths(throttle.get("tokenRatio", ABSENT), 1000, "retryThrottling.tokenRatio"))
    return config
