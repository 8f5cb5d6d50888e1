"""Exchanges of a client of our own with a relay: the bytes that it sends, all frames that come for its streams, and what the report has of
its calls. The bytes are written by hand from RFC 9113, RFC 7541 and gRPC over HTTP/2."""
from typing import NamedTuple

from live_peers import HEADERS, OK, RST_STREAM, field, frame

POST, GET, HTTP = b"\x83", b"\x82", b"\x86"
KIND = bytes.fromhex("0f10106170706c69636174696f6e2f67727063")
GRPC = POST + HTTP + b"\x04\x06/a.B/C" + KIND
OTHER = POST + HTTP + b"\x04\x06/a.B/D" + KIND
HI = bytes.fromhex("00000000026869")
# A field whose value has 7,200 bytes: two of them come to more than 14,336.
LONG = b"\0\x03x-a\x7f\xa1\x37" + b"v" * 7_200
CALL, SENT, DONE, CANCEL = "begin /a.B/C - - - = call 1", "send 1 6869 = done", "finish 1 = done", "cancel 1 = done"
# A head, a message and trailers on streams 1 and 3.
ANSWERED = "000014010400000001880f10106170706c69636174696f6e2f67727063" "00000700000000000100000000026f6b" "00000f010500000001000b677270632d7374617475730130"
OTHERS = "000014010400000003880f10106170706c69636174696f6e2f67727063" "0000060000000000030000000001620" "0000f010500000003000b677270632d7374617475730130"
# A status alone on stream 1: 8, 12, 13 and 14.
STATUS = "000024010500000001880f10106170706c69636174696f6e2f67727063000b677270632d7374617475730231"
EIGHT = "000023010500000001880f10106170706c69636174696f6e2f67727063000b677270632d7374617475730138"
TWELVE, THIRTEEN, FOURTEEN = STATUS + "32", STATUS + "33", STATUS + "34"


def request(block=GRPC, stream=1, ends=True):
    """HEADERS of a request, which ends with them or not."""
    return frame(HEADERS, 5 if ends else 4, stream, block)


def begun(octets, stream=1, ends=False):
    """A request on stream 1 and DATA."""
    return request(ends=False) + frame(0, 1 if ends else 0, stream, octets)


class Exchange(NamedTuple):
    """What a client sends after preface and SETTINGS; what comes on each of its streams, the lowest first, in hex, but for windows; what
    the report has of its calls but takes, and how the takes of the first one were answered; what the server answers; the config;
    whether the relay closes the connection; and whether the client cuts it by a reset of TCP."""

    name: str
    sends: bytes
    comes: str
    asks: list
    takes: list = []
    answers: str = "answer /a.B/C 1 h,m6f6b,s0\n"
    config: str = None
    is_closed: bool = False
    resets: bool = False


EXCHANGES = [
    Exchange("a unary call", begun(HI, ends=True), ANSWERED, [CALL, SENT, DONE], OK),
    # (the call has ended as its Finish comes)
    Exchange("no configuration", request(), FOURTEEN, [CALL, "finish 1 = refused 2"], ["end 14 - - noconfig"], config="{"),
    Exchange("another method of HTTP", request(GET + HTTP + b"\x04\x06/a.B/C" + KIND), TWELVE, []),
    Exchange("a path of one part", request(POST + HTTP + b"\x04\x02/a" + KIND), TWELVE, []),
    Exchange("no content-type", request(POST + HTTP + b"\x04\x06/a.B/C"), TWELVE, []),
    Exchange("another content-type", request(POST + HTTP + b"\x04\x06/a.B/C" + b"\x0f\x10\x09text/html"), TWELVE, []),
    Exchange("a timeout that cannot be read", request(GRPC + field(b"grpc-timeout", b"1")), THIRTEEN, []),
    Exchange("metadata past its limit", request(GRPC + LONG * 2), EIGHT, []),
    Exchange("the metadata's status before the timeout's", request(GRPC + field(b"grpc-timeout", b"1") + LONG * 2), EIGHT, []),
    Exchange("a field that is not given on", request(GRPC + field(b"grpc-x", b"1") + field(b"x-a", b"b")), ANSWERED, ["begin /a.B/C - - x-a:62 = call 1", DONE], OK),
    Exchange("a timeout", request(GRPC + field(b"grpc-timeout", b"9H")), ANSWERED, ["begin /a.B/C - 32400000000000 - = call 1", DONE], OK),
    Exchange("a compressed message", begun(b"\1\0\0\0\1x"), THIRTEEN, [CALL, CANCEL]),
    Exchange("a message above the limit", begun(bytes.fromhex("0000400001")), EIGHT, [CALL, CANCEL]),
    Exchange("a reset", request(ends=False) + frame(RST_STREAM, 0, 1, b"\0\0\0\x08"), "", [CALL, CANCEL]),
    Exchange("a client that goes", request(ends=False), "", [CALL, CANCEL]),
    Exchange("a client that is cut off", request(ends=False), "", [CALL, CANCEL], resets=True),
    Exchange("DATA on a stream that is idle", begun(HI, stream=5), "", [CALL, CANCEL], is_closed=True),
    Exchange(
        "two calls, the second of which is answered first",
        request() + request(OTHER, stream=3),
        ANSWERED + OTHERS,
        [CALL, DONE, "begin /a.B/D - - - = call 2", "finish 2 = done"],
        OK,
        answers="answer /a.B/C 1 w1,h,m6f6b,s0\nanswer /a.B/D 1 h,m62,s0\n",
    ),
]
