"""Makes scripts of sessions by a seeded list: what an application, its links, the clock and the resolver may do, in any order, with ideas
of its own of what is rare. What a channel answers is taken from a program that replays the beginning, and is used only to name calls, links
and streams that exist: nothing here says what should come out. Now and then one is named that does not exist."""
import json
import random
import struct

MILLISECOND, SECOND = 1_000_000, 1_000_000_000
DATA, HEADERS, RST_STREAM, SETTINGS, PING, GOAWAY, WINDOW_UPDATE, CONTINUATION = 0, 1, 3, 4, 6, 7, 8, 9
END_STREAM, END_HEADERS, ACK = 1, 4, 1
# After how many events the beginning is replayed at the latest.
EVERY = 4
PORTS = (50051, 50052, 50053)
PATHS = ("/a.B/C", "/a.B/D", "/e.F/G")
CODES = ("UNAVAILABLE", "RESOURCE_EXHAUSTED", "ABORTED", "INTERNAL", "DATA_LOSS")
STATUSES = (0, 0, 0, 14, 14, 14, 8, 13, 5, 1, 16, 99)
PUSHBACKS = (b"0", b"5", b"1000", b"-1", b"x", b"", b"00012", b"2147483648")
WAITS = ("-", "-", "yes", "no")
TIMEOUTS = ("-",) * 20 + (0, 1, 30 * MILLISECOND, 100 * MILLISECOND, SECOND, 3 * SECOND)
# How far the clock goes between two events, mostly nothing.
STEPS = (0,) * 30 + (1, MILLISECOND, 5 * MILLISECOND, 20 * MILLISECOND, 50 * MILLISECOND) * 3 + (99_999_999, 200 * MILLISECOND, SECOND, 2 * SECOND, 20 * SECOND)


def frame(kind, flags, stream, payload=b""):
    return struct.pack(">I", len(payload))[1:] + bytes([kind, flags]) + struct.pack(">I", stream) + payload


def field(name, value):
    """A field of a header block, as a literal that is not indexed."""
    return b"\0" + bytes([len(name)]) + name + bytes([len(value)]) + value


def message(octets):
    return b"\0" + struct.pack(">I", len(octets)) + octets


PREFACE = b"PRI * HTTP/2.0\r\n\r\nSM\r\n\r\n"
HEAD = b"\x88" + field(b"content-type", b"application/grpc")


class Link:
    """What is known of a link: the streams that the channel began on it, those that either side ended, and what is left of a cut piece."""

    def __init__(self):
        self.begun, self.ended, self.rest, self.lives, self.written = set(), set(), b"", True, b""


class Known:
    """What the replies to the beginning of a session say."""

    def __init__(self):
        self.entries, self.open, self.waiting, self.links, self.was_asked = 0, [], [], [], False

    def read(self, report):
        """Reads the entries that came since."""
        lines = [it for it in report.splitlines()[1:] if " = " in it]
        for line in lines[self.entries:]:
            event, reply = (it.split(" ") for it in line.split(" = "))
            self.entry(event[2:], reply)
        self.entries = len(lines)

    def entry(self, event, reply):
        if reply[0] == "call":
            self.open.append(int(reply[1]))
        elif reply[0] == "end":
            self.open.remove(int(event[1]))
        elif reply[0] == "dial":
            self.waiting.append(int(reply[1]))
        elif event[0] in ("up", "nodial") and int(event[1]) in self.waiting:
            self.waiting.remove(int(event[1]))
        if reply[0] == "link":
            self.links.append(Link())
        # (a dial that is not due yet is not asked for again at once)
        self.was_asked = event[0] == "dial" and reply[0] == "notyet" or self.was_asked and event[0] not in ("tick", "resolved", "lost", "nodial")
        if event[0] in ("lost", "drain", "arrived", "ping") and (event[0] == "lost" or reply[0] == "refused") and int(event[1]) <= len(self.links):
            self.links[int(event[1]) - 1].lives = False
        if reply[0] == "octets" and reply[1] != "-":
            self.drained(self.links[int(event[1]) - 1], bytes.fromhex(reply[1]))

    def drained(self, link, octets):
        """Notes the streams of the frames that a link has written whole."""
        link.written += octets
        if link.written.startswith(PREFACE):
            link.written = link.written[len(PREFACE):]
        while len(link.written) >= 9:
            size, stream = int.from_bytes(link.written[:3], "big"), int.from_bytes(link.written[5:9], "big")
            if len(link.written) < 9 + size:
                return
            if link.written[3] == HEADERS:
                link.begun.add(stream)
            if link.written[3] == RST_STREAM:
                link.ended.add(stream)
            link.written = link.written[9 + size:]


class Session:
    """One script. The seed alone decides, beside what `replay` answers to the beginning: a function from scripts to reports."""

    def __init__(self, seed, replay, events=60):
        self.dice, self.replay, self.known = random.Random(seed), replay, Known()
        self.now, self.lines, self.begun = 0, [], 0
        self.ways = {
            self.begin: 10, self.send: 8, self.finish: 8, self.take: 12, self.cancel: 2, self.resolved: 1, self.unresolved: 0.3, self.dial: 4,
            self.up: 4, self.nodial: 1.2, self.drain: 14, self.arrived: 26, self.lost: 1, self.ping: 0.7, self.tick: 7, self.shutdown: 0.15,
        }
        # (each session has ways of its own: some have no losses, some many deadlines ..)
        for way in self.ways:
            self.ways[way] *= self.dice.choice((0.2, 0.7, 1, 1, 1, 2))
        self.stepping = self.dice.choice((0.1, 0.3, 0.8))
        self.opening()
        while len(self.lines) < events:
            way = self.dice.choices(list(self.ways), list(self.ways.values()))[0]
            if self.makes_sense(way) or self.rarely(0.05):
                way()
            if len(self.lines) >= self.known.entries + EVERY:
                self.look()
        self.look()
        for call in self.known.open:
            for _ in range(self.dice.randrange(1, 4)):
                self.add(f"take {call}")

    def makes_sense(self, way):
        """Whether there is something for an event of this way, as far as is known."""
        if way in (self.drain, self.arrived, self.lost, self.ping):
            return any(it.lives for it in self.known.links)
        if way in (self.send, self.finish, self.take, self.cancel):
            return bool(self.known.open)
        return self.known.waiting if way in (self.up, self.nodial) else way != self.dial or not self.known.was_asked

    def look(self):
        self.known.read(self.replay(self.script()))

    def script(self):
        return "channel 2 ipv4:127.0.0.1:50051\n" + "".join(self.lines)

    def rarely(self, chance):
        return self.dice.random() < chance

    def add(self, event):
        if self.rarely(self.stepping):
            self.now += self.dice.choice(STEPS)
        moment = self.now if not self.rarely(0.01) else max(0, self.now - self.dice.choice(STEPS))
        self.lines.append(f"{moment} {self.dice.getrandbits(self.dice.choice((1, 64)))} {event}\n")

    def opening(self):
        """What most sessions begin with; some do not."""
        if not self.rarely(0.05):
            self.resolved(self.dice.choice((1, 1, 2, 3)))
        if not self.rarely(0.05):
            self.dial()
        self.look()

    # -- the application --
    def begin(self):
        if self.begun >= 6 and not self.rarely(0.2):
            return
        metadata = self.dice.choice(("-", "-", "-", "k:76", "a-bin:00ff,k:"))
        self.add(f"begin {self.dice.choice(PATHS)} {self.dice.choice(WAITS)} {self.dice.choice(TIMEOUTS)} {metadata}")
        self.begun += 1
        self.look()
        for way, chance in ((self.send, 0.6), (self.finish, 0.6), (self.drain, 0.8)):
            if self.rarely(chance) and self.makes_sense(way):
                way()

    def a_call(self):
        # (mostly one of the newest that go on)
        return self.dice.choice(self.known.open[-3:]) if self.known.open and not self.rarely(0.03) else self.dice.randrange(1, self.begun + 2)

    def send(self):
        size = self.dice.choice((0, 1, 2, 40, 300, 300, 5_000, 40_000, 70_000, 300_000)) if self.rarely(0.3) else self.dice.randrange(0, 9)
        self.add(f"send {self.a_call()} {bytes([self.dice.randrange(256)]).hex() * size or '-'}")

    def finish(self):
        self.add(f"finish {self.a_call()}")

    def take(self):
        self.add(f"take {self.a_call()}")

    def cancel(self):
        self.add(f"cancel {self.a_call()}")

    def shutdown(self):
        self.add("shutdown")

    # -- the resolver --
    def resolved(self, count=None):
        ports = [self.dice.choice(PORTS) for _ in range(count or self.dice.choice((0, 1, 1, 1, 2, 2, 3, 4)))]
        text = self.config()
        self.add(f"resolved {','.join(f'127.0.0.1:{it}' for it in ports) or '-'} {text.encode().hex() or '-'}")

    def unresolved(self):
        self.add("unresolved")

    def config(self):
        if self.rarely(0.12):
            return self.dice.choice(("", "{}", "{", '{"methodConfig":[{"name":[{}],"retryPolicy":{"maxAttempts":1}}]}'))
        made = {"methodConfig": [self.method(names) for names in self.dice.choice(([[{}]], [[{"service": "a.B"}], [{}]], [[{"service": "a.B", "method": "C"}]]))]}
        if self.rarely(0.5):
            made["retryThrottling"] = {"maxTokens": self.dice.choice((1, 2, 3, 10, 1000)), "tokenRatio": self.dice.choice((0.001, 0.1, 0.5, 1, 1.5))}
        if self.rarely(0.5):
            made["loadBalancingConfig"] = [{self.dice.choice(("round_robin", "round_robin", "pick_first", "unknown_policy")): {}}, {"round_robin": {}}]
        return json.dumps(made)

    def method(self, names):
        made = {"name": names}
        codes = self.dice.sample(CODES, self.dice.randrange(1, 4))
        way = self.dice.random()
        if way < 0.45:
            wait = self.dice.choice(("0.001s", "0.05s", "1s"))
            made["retryPolicy"] = {
                "maxAttempts": self.dice.choice((2, 3, 4, 5, 7)), "initialBackoff": wait, "maxBackoff": self.dice.choice((wait, "2s")),
                "backoffMultiplier": self.dice.choice((1, 2, 1.5, 0.5)), "retryableStatusCodes": codes,
            }
        elif way < 0.85:
            made["hedgingPolicy"] = {"maxAttempts": self.dice.choice((2, 3, 5)), "hedgingDelay": self.dice.choice(("0s", "0.005s", "0.05s"))}
            if self.rarely(0.8):
                made["hedgingPolicy"]["nonFatalStatusCodes"] = codes
        if self.rarely(0.15):
            made["timeout"] = self.dice.choice(("0.02s", "0.1s", "2s"))
        if self.rarely(0.2):
            made["waitForReady"] = self.rarely(0.5)
        if self.rarely(0.1):
            made[self.dice.choice(("maxRequestMessageBytes", "maxResponseMessageBytes"))] = self.dice.choice((0, 1, 5, 100))
        return made

    # -- the environment of the links --
    def dial(self):
        self.add("dial")
        if self.rarely(0.75):
            self.look()
            if self.known.waiting:
                self.dice.choice((self.up, self.up, self.up, self.up, self.nodial))()

    def up(self):
        self.add(f"up {self.a_sub()}")
        self.look()
        if self.known.links and self.rarely(0.8):
            self.settings(len(self.known.links))
        if self.rarely(0.6):
            self.drain()

    def nodial(self):
        self.add(f"nodial {self.a_sub()}")

    def a_sub(self):
        return self.dice.choice(self.known.waiting) if self.known.waiting and not self.rarely(0.05) else self.dice.randrange(1, 4)

    def a_link(self):
        alive = [n for n, link in enumerate(self.known.links, 1) if link.lives]
        return self.dice.choice(alive) if alive and not self.rarely(0.03) else self.dice.randrange(1, len(self.known.links) + 2)

    def drain(self):
        room = self.dice.choice((65_536, 65_536, 16_393, 20_000, 1_000_000)) if not self.rarely(0.02) else self.dice.choice((16_392, 9, 0))
        self.add(f"drain {self.a_link()} {room}")

    def lost(self):
        self.add(f"lost {self.a_link()}")

    def ping(self):
        self.add(f"ping {self.a_link()} {self.dice.getrandbits(64):016x}")

    def tick(self):
        self.now += self.dice.choice(STEPS)
        self.add("tick")

    # -- what comes of a link --
    def settings(self, link=None):
        choices = ((3, (0, 1, 2, 100)), (4, (0, 10, 65_535, 100_000, 2**31 - 1)), (1, (0, 64, 4_096)), (5, (16_384, 20_000)), (6, (100, 16_384)))
        pairs = [(key, self.dice.choice(values)) for key, values in choices if self.rarely(0.12)]
        self.give(link or self.a_link(), frame(SETTINGS, 0, 0, b"".join(struct.pack(">HI", *it) for it in pairs)))

    def link(self, number):
        return self.known.links[number - 1] if number <= len(self.known.links) else Link()

    def give(self, number, octets):
        """Brings bytes on a link, whole or cut: the rest of a cut piece comes before the link's next bytes."""
        link = self.link(number)
        octets, link.rest = link.rest + octets, b""
        if self.rarely(0.12) and len(octets) > 1:
            cut = self.dice.randrange(1, len(octets))
            octets, link.rest = octets[:cut], octets[cut:]
        self.add(f"arrived {number} {octets.hex()}")

    def arrived(self):
        self.look()
        number = self.a_link()
        link = self.link(number)
        # (several frames in one piece: their ends come in one entry)
        pieces = [self.of_link(link) for _ in range(self.dice.choice((1, 1, 1, 2, 3)))]
        self.give(number, b"".join(pieces))
        if self.rarely(0.4):
            self.drain()

    def of_link(self, link):
        if not link.begun and not self.rarely(0.02):
            return self.dice.choice((self.credit_of_link(), frame(SETTINGS, ACK, 0), frame(PING, 0, 0, bytes(8))))
        stream = self.a_stream(link)
        ways = {
            lambda: self.whole(self.ends(link, stream)): 4, lambda: self.trailers_only(self.ends(link, stream)): 8, lambda: self.head(stream): 4,
            lambda: self.data(stream): 5, lambda: self.trailers(self.ends(link, stream)): 4, lambda: self.reset(self.ends(link, stream)): 3, self.credit_of_link: 2, lambda: self.credit(stream): 2,
            lambda: frame(PING, self.dice.choice((0, ACK)), 0, bytes(8)): 1, lambda: self.goaway(stream): 1, lambda: frame(SETTINGS, ACK, 0): 1,
            self.odd: 0.15,
        }
        return self.dice.choices(list(ways), list(ways.values()))[0]()

    def a_stream(self, link):
        """Mostly one that is open; now and then one that has ended, or that was not begun."""
        streams = sorted(link.begun - link.ended)
        if self.rarely(0.02) or not streams:
            streams = sorted(link.begun) or [1]
        return self.dice.choice(streams) + 2 * self.rarely(0.004)

    def ends(self, link, stream):
        link.ended.add(stream)
        return stream

    def status(self):
        fields = field(b"grpc-status", str(self.dice.choice(STATUSES)).encode())
        if self.rarely(0.25):
            fields += field(b"grpc-retry-pushback-ms", self.dice.choice(PUSHBACKS))
        if self.rarely(0.2):
            fields += field(b"grpc-message", self.dice.choice((b"text", b"a%20b", b"%zz", b"")))
        return fields

    def head(self, stream, flags=END_HEADERS):
        return frame(HEADERS, flags, stream, HEAD + (field(b"k", b"v") if self.rarely(0.2) else b""))

    def data(self, stream, flags=0):
        size = self.dice.choice((0, 1, 3, 3, 3, 20, 2_000, 16_000))
        return frame(DATA, flags, stream, message(bytes([self.dice.randrange(256)]) * size))

    def trailers(self, stream):
        return frame(HEADERS, END_STREAM | END_HEADERS, stream, self.status())

    def trailers_only(self, stream):
        block = HEAD + self.status()
        if self.rarely(0.1):
            cut = self.dice.randrange(0, len(block))
            return frame(HEADERS, END_STREAM, stream, block[:cut]) + frame(CONTINUATION, END_HEADERS, stream, block[cut:])
        return frame(HEADERS, END_STREAM | END_HEADERS, stream, block)

    def whole(self, stream):
        return self.head(stream) + b"".join(self.data(stream) for _ in range(self.dice.choice((0, 1, 1, 2)))) + self.trailers(stream)

    def reset(self, stream):
        return frame(RST_STREAM, 0, stream, struct.pack(">I", self.dice.choice((7, 7, 8, 2, 0, 11, 99))))

    def goaway(self, stream):
        return frame(GOAWAY, 0, 0, struct.pack(">II", self.dice.choice((0, stream, max(0, stream - 2), 2**31 - 1)), self.dice.choice((0, 0, 2, 11))))

    def credit_of_link(self):
        return frame(WINDOW_UPDATE, 0, 0, struct.pack(">I", self.dice.choice((1, 1_000, 70_000))))

    def credit(self, stream):
        return frame(WINDOW_UPDATE, 0, stream, struct.pack(">I", self.dice.choice((1, 1_000, 70_000, 2**31 - 1))))

    def odd(self):
        """What breaks a link, or is passed over."""
        return self.dice.choice((
            frame(77, 0, 5, b"what"), frame(2, 0, 1, bytes(5)), frame(DATA, 0, 0, b"x"), frame(HEADERS, END_HEADERS, 2, HEAD), frame(5, END_HEADERS, 1, bytes(4)),
            frame(WINDOW_UPDATE, 0, 0, bytes(4)), frame(HEADERS, END_STREAM | END_HEADERS, 1, b"\x80"), frame(SETTINGS, ACK, 0, bytes(6)), bytes(9),
        ))


def script_of_seed(seed, replay):
    """The script of this seed, by a program that replays its beginnings."""
    return Session(seed, replay).script()
