"""What the runners of live calls share: runs of the program, what a report says, and peers that do what a test wants."""
import os
import re
import socket
import struct
import subprocess
import threading
import time

LONGEST = 60
PREFACE = b"PRI * HTTP/2.0\r\n\r\nSM\r\n\r\n"
HELLO = "/helloworld.Greeter/SayHello"
HEADERS, RST_STREAM, SETTINGS, PING, GOAWAY, WINDOW_UPDATE = 1, 3, 4, 6, 7, 8
OK = ["head -", "message 6f6b", "end 0 - - row"]


def frame(kind, flags, stream, payload=b""):
    """A frame of HTTP/2."""
    return struct.pack(">I", len(payload))[1:] + bytes([kind, flags]) + struct.pack(">I", stream) + payload


def field(name, value):
    """A field of a header block, as a literal that is not indexed."""
    return b"\0" + bytes([len(name)]) + name + bytes([len(value)]) + value


QUIET = frame(SETTINGS, 0, 0)
# SETTINGS_INITIAL_WINDOW_SIZE and a WINDOW_UPDATE of the connection: a peer that says so can be sent 2 GiB.
WIDE = frame(SETTINGS, 0, 0, struct.pack(">HI", 4, 2**31 - 1)) + frame(WINDOW_UPDATE, 0, 0, struct.pack(">I", 2**31 - 65536))
HEAD = b"\x88" + field(b"content-type", b"application/grpc")


def goaway(last, code=0, text=b""):
    return frame(GOAWAY, 0, 0, struct.pack(">II", last, code) + text)


def message(octets):
    return b"\0" + struct.pack(">I", len(octets)) + octets


# -- runs --
def run(program, words, script, output=subprocess.PIPE, env=None):
    """The status of the program and what it writes."""
    given = {"input": script.encode(), "stdout": output, "stderr": subprocess.PIPE, "timeout": LONGEST}
    try:
        done = subprocess.run([program, *words], env={**os.environ, **(env or {})}, **given)
    except subprocess.TimeoutExpired:
        return "it did not end", ""
    return done.returncode, (done.stdout or b"").decode()


def summed_up(program, script):
    """The status of a live run and what it says on standard error, with its milliseconds told as `N`."""
    done = subprocess.run([program, "live"], input=script.encode(), stdout=subprocess.PIPE, stderr=subprocess.PIPE, timeout=LONGEST)
    return done.returncode, re.sub(r"\d+ ms$", "N ms", done.stderr.decode(), flags=re.M)


class Live:
    """A live run that goes on beside the test."""

    def __init__(self, program, script, *words):
        streams = {"stdin": subprocess.PIPE, "stdout": subprocess.PIPE, "stderr": subprocess.PIPE}
        self.begun = time.monotonic()
        self.run = subprocess.Popen([program, "live", *words], **streams)
        self.came, self.said, self.took = [], [], None
        self.threads = [threading.Thread(target=it, daemon=True) for it in (lambda: self.give(script), self.read, self.hear)]
        for thread in self.threads:
            thread.start()

    def give(self, script):
        try:
            self.run.stdin.write(script.encode())
            self.run.stdin.close()
        except BrokenPipeError:
            pass

    def read(self):
        self.came.append(self.run.stdout.read())
        self.took = time.monotonic() - self.begun

    def hear(self):
        self.said.append(self.run.stderr.read())

    def descriptors(self):
        """How many sockets it has open, and what its descriptors 0 to 2 are."""
        names = {}
        for name in os.listdir(f"/proc/{self.run.pid}/fd"):
            try:
                names[int(name)] = os.readlink(f"/proc/{self.run.pid}/fd/{name}")
            except OSError:
                pass
        return sum(it.startswith("socket:") for it in names.values()), [names.get(it, "closed") for it in range(3)]

    def ended(self, longest):
        """The status, the report and the seconds that it took; it is killed where it takes longer than so many seconds."""
        try:
            status = self.run.wait(timeout=max(0.1, longest + self.begun - time.monotonic()))
        except subprocess.TimeoutExpired:
            self.run.kill()
            self.run.wait()
            status = f"it did not end in {longest} s"
        for thread in self.threads:
            thread.join()
        return status, self.came[0].decode(), self.took


class LongLive(Live):
    """A live run of whose report only the end is kept."""

    def read(self):
        end = b""
        while piece := self.run.stdout.read(1 << 20):
            end = (end + piece)[-1_000:]
        self.came.append(end)
        self.took = time.monotonic() - self.begun


class Server:
    """The program, serving so many links by a script at a port of the system's choice, or at this one."""

    def __init__(self, program, links, script, port=0):
        words = [program, "serve", "--port", str(port), "--links", str(links)]
        self.run = subprocess.Popen(words, stdin=subprocess.PIPE, stdout=subprocess.PIPE, stderr=subprocess.PIPE)
        self.run.stdin.write(script.encode())
        self.run.stdin.close()
        found = re.fullmatch(r"listening (\d+)\n", self.run.stderr.readline().decode())
        self.port = int(found[1]) if found else 0

    def ended(self):
        """The status, and what was written, once it has ended."""
        try:
            status = self.run.wait(timeout=LONGEST)
        except subprocess.TimeoutExpired:
            self.run.kill()
            return "it did not end"
        return status, self.run.stdout.read().decode()


# -- scripts and reports --
def channel(*ports, config=None):
    """The first lines of a live script: these ports of the loopback address, and a config."""
    addresses = ",".join(f"127.0.0.1:{port}" for port in ports)
    return f"channel 2 ipv4:{addresses}\n" + (f"config {config.encode().hex()}\n" if config else "")


def policy(text):
    """A config with this policy for all methods."""
    return '{"methodConfig":[{"name":[{}],' + text + "}]}"


def retries(attempts=4, wait="0.05s"):
    return policy(f'"retryPolicy":{{"maxAttempts":{attempts},"initialBackoff":"{wait}","maxBackoff":"1s","backoffMultiplier":2,"retryableStatusCodes":["UNAVAILABLE"]}}')


ROUND_ROBIN = '{"loadBalancingConfig":[{"round_robin":{}}]}'


def script_of(report):
    """The script that a report holds."""
    lines = report.splitlines()
    return "\n".join(lines[:1] + [line.split(" = ")[0] for line in lines[1:] if " = " in line]) + "\n"


def taken(report, call):
    """The replies to the takes of a call."""
    return [line.split(" = ")[1] for line in report.splitlines() if re.search(rf" take {call} = ", line)]


def ends(report, calls):
    """How each of so many calls ended."""
    return [(taken(report, call) or ["no end"])[-1] for call in range(1, calls + 1)]


def events(report, name=""):
    """The events with their replies, without their moments and words; those of a name."""
    rest = (line.split(" ", 2)[2] for line in report.splitlines()[1:] if " = " in line)
    return [line for line in rest if line.startswith(name)]


def rows(report, call):
    """The kinds of a call's attempts, with the code and cause of each."""
    words = (line.split(" ") for line in report.splitlines() if line.startswith(f"row {call} "))
    return [f"{it[3]} {it[11]} {it[14]}" for it in words]


# -- peers --
class Wire:
    """A connection of a peer of our own."""

    def __init__(self, link):
        self.link, self.kept, self.began = link, b"", False

    def send(self, *octets):
        self.link.sendall(b"".join(octets))

    def read(self, count):
        while len(self.kept) < count:
            piece = self.link.recv(1 << 16)
            if not piece:
                raise EOFError
            self.kept += piece
        front, self.kept = self.kept[:count], self.kept[count:]
        return front

    def frame(self):
        """The next frame: kind, flags, stream and payload."""
        if not self.began:
            self.began = self.read(len(PREFACE)) == PREFACE
        head = self.read(9)
        return head[3], head[4], int.from_bytes(head[5:], "big"), self.read(int.from_bytes(head[:3], "big"))

    def request(self):
        """The stream of the next request that has come whole. PINGs before it are answered."""
        while True:
            kind, flags, stream, payload = self.frame()
            if kind in (0, HEADERS) and flags & 1:
                return stream
            if kind == PING and not flags & 1:
                self.send(frame(PING, 1, 0, payload))

    def answer(self, stream, code=0, text=b"ok"):
        """A head, a message and trailers with this status."""
        end = field(b"grpc-status", str(code).encode())
        self.send(frame(HEADERS, 4, stream, HEAD), frame(0, 0, stream, message(text)), frame(HEADERS, 5, stream, end))

    def fail(self, stream, code, *more):
        """Trailers alone with this status and further fields."""
        self.send(frame(HEADERS, 5, stream, HEAD + field(b"grpc-status", str(code).encode()) + b"".join(more)))

    def reset(self):
        """Cuts the connection by a reset of TCP."""
        self.link.setsockopt(socket.SOL_SOCKET, socket.SO_LINGER, struct.pack("ii", 1, 0))
        self.link.close()

    def is_closed_within(self, seconds):
        """Whether the other side closes the connection within so many seconds."""
        self.link.settimeout(seconds)
        try:
            while self.link.recv(1 << 16):
                pass
        except socket.timeout:
            return False
        except OSError:
            pass
        return True


class Peer:
    """A port that accepts connections, sends SETTINGS on each or what else it greets with, and then does something. The system holds for
    it at most about `room` bytes that it does not read."""

    def __init__(self, act, greets=QUIET, port=0, room=None):
        self.act, self.greets, self.links = act, greets, []
        self.listener = socket.socket()
        self.listener.setsockopt(socket.SOL_SOCKET, socket.SO_REUSEADDR, 1)
        if room:
            self.listener.setsockopt(socket.SOL_SOCKET, socket.SO_RCVBUF, room)
        self.listener.bind(("127.0.0.1", port))
        self.listener.listen(1024)
        self.port = self.listener.getsockname()[1]
        threading.Thread(target=self.accept, daemon=True).start()

    def accept(self):
        while True:
            try:
                link, _ = self.listener.accept()
            except OSError:
                return
            link.setsockopt(socket.IPPROTO_TCP, socket.TCP_NODELAY, 1)
            self.links.append(link)
            threading.Thread(target=self.serve, args=(link,), daemon=True).start()

    def serve(self, link):
        try:
            link.sendall(self.greets)
            self.act(Wire(link))
        except (OSError, EOFError):
            pass

    def close(self):
        """Accepts nothing further, and closes what it has."""
        for one in (self.listener, *self.links):
            # (a thread that waits for it wakes up)
            try:
                one.shutdown(socket.SHUT_RDWR)
            except OSError:
                pass
            one.close()


def says_nothing(_):
    """What a peer does that says nothing further."""


def answers(wire, wait=0):
    """What a peer does that answers each request."""
    while True:
        stream = wire.request()
        time.sleep(wait)
        wire.answer(stream)


class Hole:
    """A port whose queue of connections is full, so that it answers no SYN."""

    def __init__(self):
        self.listener = socket.socket()
        self.listener.bind(("127.0.0.1", 0))
        self.listener.listen(0)
        self.port = self.listener.getsockname()[1]
        self.waiting = []
        for _ in range(4):
            link = socket.socket()
            link.setblocking(False)
            link.connect_ex(("127.0.0.1", self.port))
            self.waiting.append(link)
        time.sleep(0.2)


def opens_late():
    """A port that answers no SYN for 21 seconds, and then each."""
    hole = Hole()

    def act():
        time.sleep(21)
        while True:
            link, _ = hole.listener.accept()
            link.sendall(QUIET)
            threading.Thread(target=lambda: swallowed(link), daemon=True).start()

    def swallowed(link):
        try:
            answers(Wire(link))
        except (OSError, EOFError):
            pass

    threading.Thread(target=act, daemon=True).start()
    return hole


def closed_port():
    """A port at which nobody listens."""
    with socket.create_server(("127.0.0.1", 0)) as listener:
        return listener.getsockname()[1]


def pours(octets):
    """What a peer does that pours these bytes on each connection, behind its first request."""
    def act(wire):
        wire.request()
        while True:
            wire.send(octets)

    return act


def pours_messages(wire):
    """What a peer does that answers with empty messages without an end, as the windows let it."""
    stream = wire.request()
    wire.send(frame(HEADERS, 4, stream, HEAD))
    piece, rooms = frame(0, 0, stream, message(b"") * 1_000), {0: 65_535, stream: 65_535}
    while True:
        while min(rooms.values()) < len(piece):
            kind, _, number, payload = wire.frame()
            if kind == WINDOW_UPDATE and number in rooms:
                rooms[number] += int.from_bytes(payload, "big")
        wire.send(piece)
        for number in rooms:
            rooms[number] -= len(piece) - 9
