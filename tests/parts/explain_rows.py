"""Rows of tests/runners/explain: what tools/explain has to say, worked by hand from the sessions, and files that it has to refuse."""

# A report of tests/worked, the words after it, and what has to stand in the text (its spaces and line ends as one space).
WORKED = [(f"tests/worked/{name}", words, parts) for name, words, parts in [
    ("attempts/two-retries-and-a-success", "1", [
        "retry: up to 4 attempts, 100 ms x 2 up to 1 s, on UNAVAILABLE", "1 of 4 attempts is made: attempt 2 is due 100 ms later, drawn from 80 ms to 120 ms (backoff 100 ms)",
        "2 of 4 attempts are made: attempt 3 is due 200 ms later, drawn from 160 ms to 240 ms (backoff 200 ms)", "attempt 3 (retry) was answered OK", "end OK (0)"]),
    ("attempts/nine-attempts-are-cut-down-to-five", "", ["1 UNAVAILABLE 5", "all 5 attempts used"]),
    ("attempts/nine-attempts-are-cut-down-to-five", "1", ["up to 5 attempts", "the server answered UNAVAILABLE; the policy allows 5 attempts and this was the last", "5 retry"]),
    ("attempts/tokens-at-half-stop-a-retry", "1", ["the policy allows 3 attempts and this was the last", "9 of 10 tokens are left, more than half", "8 of 10 tokens are left, more than half"]),
    ("attempts/tokens-at-half-stop-a-retry", "2", ["6 of 10 tokens are left, more than half", "throttling forbade another one: 5 of 10 tokens were left, and more than half (5) are needed"]),
    ("attempts/a-failure-that-crosses-the-half", "", ["3 UNAVAILABLE 1 1.0 /a.B/C UNAVAILABLE; throttled, 5 of 10 tokens left", "throttled, 4.1 of 10 tokens left"]),
    ("attempts/a-failure-that-crosses-the-half", "5", ["throttling forbade another one: 4.1 of 10 tokens were left, and more than half (5) are needed",
                                               "10 tokens, 0.1 back for each success; no retry or hedge at 5 or below"]),
    ("attempts/tokens-after-a-success", "2", ["1 first", "8.546", "the first attempt was answered OK"]),
    ("attempts/a-retry-after-a-pushback-and-one-after-a-wait", "1", [
        "UNAVAILABLE, pushback 7 ms", "attempt 2 is due 7 ms later, as the server asked (grpc-retry-pushback-ms)", "attempt 3 is due 100 ms later, drawn from 80 ms to 120 ms"]),
    ("attempts/pushbacks-that-stop", "1", ["UNAVAILABLE, pushback: no retry", "its grpc-retry-pushback-ms says that no retry may follow"]),
    ("attempts/pushbacks-that-stop", "2", ["its grpc-retry-pushback-ms says that no retry may follow"]),
    ("attempts/pushbacks-that-stop", "3", ["its grpc-retry-pushback-ms says that no retry may follow"]),
    ("attempts/a-refused-stream-is-tried-again-once", "1", [
        "no server saw attempt 1 (reset REFUSED_STREAM), so it is made again at once", "1 transparent", "such an attempt is made again transparently once a call, and that was done",
        "end UNAVAILABLE (14)"]),
    ("attempts/links-lost-before-anything-was-sent", "1", ["1 first", "1/-", "2/-", "3/1", "no server saw attempt 1 (nothing was sent)", "takes no token", "end OK (0)"]),
    ("attempts/a-head-cuts-the-other-hedges", "1", ["the head of attempt 2 (hedge) comes, so the call is committed to it, and attempts 1 and 3 are cut", "end open",
                                            "cut: the call was committed to attempt 2"]),
    ("attempts/a-failed-hedge-brings-the-next-one-at-once", "1", ["2 hedge 5.0 5.0", "3 hedge 55.0 55.0", "UNAVAILABLE of attempt 1 is among the nonFatalStatusCodes, so attempt 2 (hedge) is due at once",
                                                          "attempt 3 (hedge) is due, 50 ms (hedgingDelay) after attempt 2 was placed"]),
    ("attempts/the-last-failed-hedge-is-the-end", "1", ["the policy allows 2 attempts, all of them had ended, and this was the last to end", "end UNAVAILABLE (14)"]),
    ("attempts/two-hedges-end-in-one-piece", "1", ["3 hedge", "end open", "attempt 3 (hedge) waits for its answer"]),
    ("attempts/a-status-past-the-deadline", "1", ["end DEADLINE_EXCEEDED (4), by the channel (deadline)", "the deadline of 100 ms (the application's) came while attempt 1 waited for its answer", "cut at the deadline"]),
    ("calls/a-response-message-above-the-limit", "1", ["end RESOURCE_EXHAUSTED (8), by the channel (response)", "a message of the response is above the limit of 4,194,304 bytes"]),
    ("channels/failed-dials-and-the-waits-after-them", "1", ["end UNAVAILABLE (14), by the channel: no server ever saw it", "127.0.0.1:50051: the dial failed 100 ms before the call began", "wait for ready: yes"]),
    ("channels/no-config-at-all", "1", ["end UNAVAILABLE (14), by the channel (noconfig): no server ever saw it", "the resolver failed, and no valid config was ever given"]),
    ("channels/no-config-at-all", "2", ["end open", "it waits for a valid service config, and the resolver gave none", "no deadline: without an answer it waits for ever"]),
    ("channels/a-first-config-with-a-fault", "1", ["the resolver's config has a fault (badconfig 1 1:1)"]),
    ("calls/a-cancelled-call-resets-its-stream", "1", ["end CANCELLED (1), by the channel (cancelled)", "the application cancelled the call while attempt 1 waited for its answer"]),
    ("calls/a-cancelled-call-resets-its-stream", "1 --actions", ["CallEnds: call 1: CANCELLED (cancelled)", "StreamReset: RST_STREAM CANCEL for call 1 attempt 1, stream 1 of link 1"]),
    ("channels/a-new-policy-takes-the-waiting-calls", "--actions", ["PolicyBegins: generation 2, round_robin", "PolicyTakesOver: generation 2, round_robin",
                                                            "PickRequested: round_robin (generation 2) is asked for call 1 attempt 1, and answers: subchannel 1"]),
    ("channels/four-calls-go-round-three-addresses", "--actions", [f"call {call} attempt 1, and answers: subchannel {sub}" for call, sub in ((1, 1), (2, 2), (3, 3), (4, 1))]),
    ("hostile/hostile-a-window-update-of-nothing-for-a-stream", "1", ["INTERNAL (13)", "a WINDOW_UPDATE of 0"]),
    ("hostile/hostile-a-frame-above-its-greatest-length", "1", ["link 1 was lost after the request was sent, which counts as UNAVAILABLE"]),
    ("hostile/hostile-a-frame-above-its-greatest-length", "--actions", ["LinkBreaks: link 1: FRAME_SIZE_ERROR"]),
    ("hostile/hostile-a-header-block-with-index-0", "--actions", ["LinkBreaks: link 1: COMPRESSION_ERROR"]),
    ("calls/refusals-each-in-its-place", "--actions", ["EventRefused: no call has that number", "EventRefused: no subchannel has that number", "EventRefused: no link has that number",
                                                 "EventRefused: the channel was shut down"]),
]]


def swap(old, new):
    return lambda text: text.replace(old, new, 1)


# Files that are no whole report: a name, the change of a good one (examples/retry-with-pushback), and the place that has to be named.
FOREIGN = [
    ("no bytes", lambda text: "", "line 1: the file is empty"),
    ("another text", lambda text: "# A page\n\nof words\n", "line 1: no report begins so"),
    ("a fault of the program", lambda text: "fault line 2 cause 5\n", "line 1: the program refused its input (fault line 2 cause 5)"),
    ("a script", lambda text: "".join(line.split(" = ")[0] + "\n" for line in text.split("\n") if " = " in line or line.startswith("channel")), "line 2: an event without a reply"),
    ("a live script", lambda text: "channel 2 ipv4:127.0.0.1:1\ncall 1 /a.B/C - - -\n", "line 2: a live script"),
    ("cut between lines", lambda text: "\n".join(text.split("\n")[:9]) + "\n", "line 9: the report is cut off here"),
    ("cut within a line", lambda text: text[:-4], "line 21: the file ends in the middle of this line"),
    ("a carriage return", swap("tick = done\n", "tick = done\r\n"), "line 13: byte 0x0d"),
    ("a letter outside ASCII", swap("7 80 status", "7 80 st\xe4tus"), "line 19: byte 0xe4"),
    ("an unknown event", swap("9000000 0 tick", "9000000 0 tock"), "line 13: no event 'tock'"),
    ("an event with other fields", swap("0 take 1 = notyet", "0 take = notyet"), "line 12: 'take' has other fields"),
    ("a moment that falls", swap("9000000 0 tick", "900000 0 tick"), "line 13: its moment is below the one before"),
    ("a leading zero", swap("9000000 0 tick", "09000000 0 tick"), "line 13"),
    ("hex in capitals", swap("0f010500000003", "0F010500000003"), "line 15"),
    ("an odd digit of a piece", swap("70632d7374617475730130", "70632d737461747573013"), "line 15: its bytes have an odd digit"),
    ("an odd digit of a message", swap("send 1 6869", "send 1 686"), "line 8: its bytes have an odd digit"),
    ("an odd digit of what was taken", swap("message 6f6b", "message 6f6"), "line 17: its bytes have an odd digit"),
    ("an entry too few", lambda text: "\n".join(line for line in text.split("\n") if "notyet" not in line), "it counts 17 entries and 2 rows, and 16 and 2 stand above it"),
    ("a row too few", lambda text: "\n".join(line for line in text.split("\n") if " retry " not in line), "it counts 17 entries and 2 rows, and 17 and 1 stand above it"),
    ("a pushback that was not sent", swap("10 14 7 80", "10 14 8 80"), "line 19: its pushback is 8; the events above give 7"),
    ("a retry that is due sooner", swap("retry 9000000", "retry 8000000"), "line 20: its due is 8000000; the events above give 9000000"),
    ("another answer", swap("70632d7374617475730130", "70632d7374617475730131"), "line 18: the take says that the call ended with 0 (row), and by the rules it ended with 1 (row)"),
    ("another call", swap("= call 1", "= call 2"), "line 7: the calls are numbered in their order"),
    ("a link without a dial", swap("0 0 up 1 = link 1", "0 0 up 2 = link 1"), "line 4: there is no subchannel 2"),
    ("HEADERS of no attempt", swap("000059010400000003", "000059010400000005"), "line 14: HEADERS open stream 5, and no attempt waits for it"),
]

RETRY = '"maxAttempts":%s,"initialBackoff":"0.1s","maxBackoff":"1s","backoffMultiplier":2,"retryableStatusCodes":["UNAVAILABLE","INTERNAL"]'
ENTRY = '{"methodConfig":[{"name":[{"service":"%s"}],%s}]}'

# A config, a path or no word, and what has to be said.
ADVICE = [
    ("a retry policy", ENTRY % ("a.B", '"retryPolicy":{' + RETRY % 4 + "}"), "/a.B/Get", [
        "/a.B/Get by methodConfig[0] (service a.B)", "retry up to 4 attempts, on INTERNAL and UNAVAILABLE",
        "waits 80 ms to 120 ms, 160 ms to 240 ms, 320 ms to 480 ms (backoff at most 1 s)", "at worst 840 ms of waits", "a call that no server answers waits for ever", "throttle none"]),
    ("attempts above five", ENTRY % ("a.B", '"retryPolicy":{' + RETRY % 9 + "}"), "/a.B/Get", ["up to 5 attempts", "warning: methodConfig[0].retryPolicy.maxAttempts: 9 counts as 5"]),
    ("a name of the old spelling", ENTRY % ("a.B", '"retry_policy":{}'), "/a.B/Get", ["warning: methodConfig[0].retry_policy: no field of that name; it is passed over (retryPolicy?)", "attempts one"]),
    ("a service with a slash", ENTRY % ("/a.B", '"timeout":"1s"'), "/a.B/Get", ['warning: methodConfig[0].name[0].service: "/a.B" begins with a slash: no call has it (a.B?)', "by no entry of methodConfig"]),
    ("policies passed over", '{"loadBalancingConfig":[{"ROUND_ROBIN":{}},{"pick_first":{}},{"round_robin":{}}]}', "/a.B/C", [
        'warning: loadBalancingConfig[0]: no policy "ROUND_ROBIN"; it is passed over (round_robin?)', "warning: loadBalancingConfig[2]: it is passed over; pick_first stands before it", "policy pick_first"]),
    ("a deadline that ends first", ENTRY % ("a.B", '"timeout":"0.05s","retryPolicy":{' + RETRY % 2 + "}"), "/a.B/C", [
        "deadline 50 ms", "warning: methodConfig[0].retryPolicy.initialBackoff: the timeout of 0.05s ends before the first retry is due"]),
    ("a hedging policy", ENTRY % ("a.B", '"hedgingPolicy":{"maxAttempts":3,"hedgingDelay":"0.5s"}'), "/a.B/C", [
        "hedge up to 3 attempts, each code is fatal", "sent at once, at 500 ms, at 1 s", "warning: methodConfig[0].hedgingPolicy.nonFatalStatusCodes: no code"]),
    ("throttling", '{"retryThrottling":{"maxTokens":10,"tokenRatio":0.5466}}', "/a.B/C", [
        "throttle 10 tokens, one for each failure, 0.546 back for each success; no retry or hedge at 5 or below", "warning: retryThrottling.tokenRatio: 0.5466 counts as 0.546; three decimals count"]),
    ("all names", '{"methodConfig":[{"name":[{"service":"a.B","method":"C"},{}],"timeout":"2s"}]}', "", ["2 names, pick_first, throttling: none", "/a.B/C one attempt, deadline 2 s", "the default one attempt, deadline 2 s"]),
]
