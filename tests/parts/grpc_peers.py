"""What the runners share that need gRPC for Python (python3-grpcio of Debian): the library, where it is installed, and a server by it."""
import os
import sys
import threading
import time
from concurrent import futures

SYSTEM = "/usr/bin/python3"
MIB4 = 4_194_304
try:
    import grpc
except ImportError:
    if os.path.exists(SYSTEM) and sys.executable != SYSTEM and "RUN_WITH_GRPC" not in os.environ:
        os.execve(SYSTEM, [SYSTEM, *sys.argv], {**os.environ, "RUN_WITH_GRPC": "1"})
    grpc = None


class Service(grpc.GenericRpcHandler if grpc else object):
    """Methods by their paths; each takes the messages of a request and gives those of the answer."""

    def __init__(self):
        self.seen, self.cancelled, self.lock = {}, [], threading.Lock()

    def service(self, details):
        name = details.method.rsplit("/", 1)[1]
        method = getattr(self, name.lower(), None)
        return method and grpc.stream_stream_rpc_method_handler(lambda come, context: method(come, context, name))

    def note(self, name):
        """Notes the moment of a call of this name, and says how many there were before."""
        with self.lock:
            moments = self.seen.setdefault(name, [])
            moments.append(time.monotonic())
            return len(moments) - 1

    def echo(self, come, context, name):
        self.note(name)
        given = [(key, value) for key, value in context.invocation_metadata() if key.startswith("x-")]
        context.send_initial_metadata(given)
        yield from come

    def code(self, come, context, _):
        context.abort(grpc.StatusCode.PERMISSION_DENIED, "not für you")

    def sum(self, come, context, _):
        yield str(sum(len(one) for one in come)).encode()

    def trailers(self, come, context, _):
        context.set_trailing_metadata((("x-t-bin", b"\x01\x80"),))
        yield from come

    def count(self, come, context, _):
        for _ in come:
            yield from (b"1", b"22", b"333")

    def slow(self, come, context, name):
        self.note(name)
        context.add_callback(lambda: self.cancelled.append(time.monotonic()))
        for one in come:
            time.sleep(0.3)
            yield one

    def big(self, come, context, _):
        for one in come:
            yield b"q" * int(one)

    def left(self, come, context, name):
        self.note(name)
        yield str(context.time_remaining()).encode()

    def once(self, come, context, name):
        """Fails once, and then answers."""
        if self.note(name) < 1:
            context.abort(grpc.StatusCode.UNAVAILABLE, "down")
        yield from come

    def fails(self, come, context, name):
        """Fails twice, and then answers."""
        if self.note(name) < 2:
            context.abort(grpc.StatusCode.UNAVAILABLE, "down")
        yield b"ok"

    def pushed(self, come, context, name):
        """Fails once, with the pushback of the request."""
        pushback = dict(context.invocation_metadata())["x-pushback"]
        if self.note(name + pushback) == 0:
            context.set_trailing_metadata((("grpc-retry-pushback-ms", pushback),))
            context.abort(grpc.StatusCode.UNAVAILABLE, "later")
        yield b"ok"

    def late(self, come, context, name):
        """A head, and then a failure."""
        self.note(name)
        context.send_initial_metadata(())
        yield b"1"
        context.abort(grpc.StatusCode.UNAVAILABLE, "late")

    def hedged(self, come, context, name):
        """The first is answered after two seconds, all others at once."""
        if self.note(name) == 0:
            context.add_callback(lambda: self.cancelled.append(time.monotonic()))
            time.sleep(2)
        yield b"ok"


class Served:
    """A server of gRPC for Python at a port of the system's choice, or at this one."""

    def __init__(self, port=0, *options):
        self.service = Service()
        sizes = [("grpc.max_receive_message_length", 2 * MIB4), ("grpc.max_send_message_length", 2 * MIB4), ("grpc.so_reuseport", 0)]
        self.server = grpc.server(futures.ThreadPoolExecutor(32), handlers=(self.service,), options=[*sizes, *options])
        self.port = self.server.add_insecure_port(f"127.0.0.1:{port}")
        self.server.start()

    def close(self):
        """Stops at once: what it has open is cut."""
        self.server.stop(None).wait()
