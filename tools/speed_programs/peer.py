#!/usr/bin/env python3
"""A client of gRPC for Python, for the figures of live calls: PORT METHOD CALLERS CALLS SENT, as that of peer.go."""
import sys
import threading
import time

import grpc

MOST = 16 << 20


def main():
    port, method, callers, calls, sent = sys.argv[1], sys.argv[2], *map(int, sys.argv[3:6])
    sizes = [("grpc.max_receive_message_length", MOST), ("grpc.max_send_message_length", MOST)]
    channel = grpc.insecure_channel(f"127.0.0.1:{port}", options=sizes)
    grpc.channel_ready_future(channel).result(timeout=20)
    call = channel.unary_unary(f"/speed.Calls/{method}", request_serializer=None, response_deserializer=None)
    message, times = bytes(sent), []

    def make(caller):
        for _ in range(caller, calls, callers):
            start = time.perf_counter()
            if len(call(message, timeout=60)) != sent:
                sys.exit("an answer of another length")
            times.append(time.perf_counter() - start)

    begun = time.perf_counter()
    workers = [threading.Thread(target=make, args=(caller,)) for caller in range(callers)]
    for worker in workers:
        worker.start()
    for worker in workers:
        worker.join()
    seconds = time.perf_counter() - begun
    times.sort()
    print(seconds, times[len(times) // 2], times[len(times) * 99 // 100])


main()
