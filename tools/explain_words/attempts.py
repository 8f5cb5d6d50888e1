"""Attempts by gRFC A6: when the next one is due, which end is the call's, commitment, throttling, transparent retries."""

from heapq import heappop, heappush

from .session import Row, RowEnd, Stamp

GOLDEN, WORDS, MOST = 0x9E3779B97F4A7C15, 1 << 64, 10**18
MOST_UNCOMMITTED = 262144


def capped(plan, retries):
    """The backoff of the n-th retry: initialBackoff times the multiplier for each one before, up to maxBackoff."""
    value = plan.initial
    for _ in range(retries - 1):
        value = min(value * plan.multiplier // 1000, MOST)
    return min(value, plan.longest)


def spread(cap, word):
    """A wait of 80 to 120 % of the backoff, by a random word."""
    fifth = cap // 5
    return cap - fifth + word * (2 * fifth + 1) // WORDS


class Attempts:
    """The part of the channel that follows single calls. A Channel has the rest."""

    def next_word(self):
        word = (self.word + self.drawn * GOLDEN) % WORDS
        self.drawn += 1
        return word

    # ---- when the next attempt is due

    def next_due(self, call):
        plan = call.plan
        if call.is_stopped or call.sent >= (plan.attempts if plan else 1):
            return None
        if call.forced is None and call.placed is not None and plan and plan.kind == "hedge":
            return call.placed + plan.delay
        return call.forced

    def schedule(self, call):
        due = self.next_due(call)
        if due is not None:
            heappush(self.dues, (due, call.number))

    def make_due(self):
        """Makes the attempts that are due, by call number; a hedge that the tokens forbid is withheld for good."""
        dues = self.dues
        if not dues or dues[0][0] > self.moment:
            return False
        did, ready = False, set()
        while True:
            while dues and dues[0][0] <= self.moment:
                ready.add(heappop(dues)[1])
            if not ready:
                return did
            call = self.calls[min(ready) - 1]
            ready.discard(call.number)
            due = self.next_due(call)
            if due is None or due > self.moment:
                continue
            did = True
            kind = "first" if call.sent == 0 else call.plan.kind
            if kind == "hedge" and call.run and not call.run.is_above(call.run.count):
                self.withhold(call, due)
            else:
                self.make(call, call.sent + 1, kind, due)

    def make(self, call, number, kind, due):
        row = Row(len(self.rows) + 1, call, number, kind, due, Stamp(self.entry, self.moment))
        self.rows.append(row)
        call.rows.append(row)
        self.queue[row.place] = row
        self.fresh.append(row)
        self.is_changed = True
        if kind != "transparent":
            call.sent, call.newest, call.placed, call.forced = call.sent + 1, row, None, None
        self.note("AttemptMade", row)
        return row

    def withhold(self, call, due):
        call.is_stopped = True
        call.withheld = (Stamp(self.entry, self.moment), due, call.run.count)
        self.note("HedgeWithheld", call)
        last = call.last_counted
        if last and call.committed is None and call.end is None and self.is_last(call):
            self.commit(last, "final")
            self.end_call(call, "row")

    # ---- commitment and the end of a call

    def commit(self, row, why):
        call = row.call
        row.committed = Stamp(self.entry, self.moment, why)
        call.committed, call.is_stopped = row, True
        self.note("CallCommitted", row)
        if len(call.rows) > 1:
            for other in call.rows:
                if other.number != row.number:
                    self.drop_or_cut(other)

    def drop_or_cut(self, row):
        if row.is_outstanding:
            self.end_row(row, 1, "cut")
        elif row.end is None:
            self.queue.pop(row.place, None)

    def end_call(self, call, cause):
        call.end = Stamp(self.entry, self.moment, cause)
        call.is_stopped = True
        self.unconfigured.pop(call.number, None)
        self.note("CallEnds", call)
        for row in call.rows:
            self.drop_or_cut(row)

    # ---- the end of an attempt

    def is_followed(self, row, cause, is_unseen):
        """A transparent retry: nothing was sent, or once a call the server says that it did not see the attempt."""
        call = row.call
        return cause == "unsent" or (is_unseen and cause in ("goaway", "reset") and call.committed is None and not call.is_refusal_followed)

    def is_licensed(self, row, code, pushback, count):
        plan, run = row.call.plan, row.call.run
        return (
            plan is not None
            and plan.kind == "retry"
            and code in plan.codes
            and pushback != "stop"
            and (run is None or run.is_above(count))
            and row.number < plan.attempts
        )

    def charge(self, row, code, pushback):
        """The tokens after a counted end."""
        run = row.call.run
        before = run.count
        if code == 0:
            run.count = min(run.start, run.count + run.ratio)
        elif code in row.call.codes or pushback == "stop":
            run.count = max(0, run.count - 1000)
        if run.count != before:
            run.changes.append((Stamp(self.entry, self.moment), run.count, row))

    def end_row(self, row, code, cause, block=None, pushback=None, is_unseen=False, reset=8, detail=None):
        call, link = row.call, row.link
        end = row.end = RowEnd(self.entry, self.moment, code, cause)
        end.text, end.fields, end.pushback = block.message() if block else "", block, pushback
        end.seen, end.is_unseen, end.detail = link.read if link else 0, is_unseen, detail
        is_followed = cause != "cut" and self.is_followed(row, cause, is_unseen)
        end.is_counted = cause != "cut" and not is_followed
        if call.run:
            if end.is_counted:
                self.charge(row, code, pushback)
            end.tokens = call.run.count
        if end.is_counted and call.committed is None and pushback is None and self.is_licensed(row, code, None, end.tokens):
            end.word = self.next_word()
        self.queue.pop(row.place, None)
        self.is_changed = True
        self.note("AttemptEnds", row)
        if link:
            self.leave_link(row, reset)
        if is_followed:
            self.follow(row)
        elif end.is_counted:
            self.counted(row)

    def leave_link(self, row, reset):
        """The row leaves its link; the stream is reset unless both sides closed it, the peer reset it or the link is gone."""
        link = row.link
        link.rows.pop(row.place, None)
        self.touched.add(link)
        if row.stream is None:
            link.waiting.remove(row)
            return
        link.streams.pop(row.stream, None)
        if row.end.cause != "reset" and link.over is None and not (row.has_sent_end and row.is_closed):
            self.resets.append((link.number, row.stream, row, reset if row.end.cause == "framing" else 8))

    def flush_resets(self):
        if self.resets:
            for _, _, row, code in sorted(self.resets, key=lambda item: item[:2]):
                row.reset = (Stamp(self.entry, self.moment), code)
                self.note("StreamReset", row)
            self.resets = []

    def follow(self, row):
        call = row.call
        if row.end.cause != "unsent":
            call.is_refusal_followed = True
        after = self.make(call, row.number, "transparent", self.moment)
        if call.committed is row:
            after.committed = Stamp(self.entry, self.moment, "handed")
            call.committed = after
            self.note("CallCommitted", after)

    def counted(self, row):
        call = row.call
        call.last_counted = row
        self.due_after(call, row)
        if call.end is None:
            if call.committed is row:
                self.end_call(call, "row")
            elif call.committed is None and self.is_final(row):
                self.commit(row, "final")
                self.end_call(call, "row")
        self.schedule(call)

    def due_after(self, call, row):
        """What a counted end does to the next due moment."""
        plan, end = call.plan, row.end
        if end.pushback is not None and end.pushback != "stop":
            call.delayed = row.number
        if call.is_stopped or plan is None or end.code not in plan.codes:
            return
        if plan.kind == "retry":
            is_next = self.is_licensed(row, end.code, end.pushback, end.tokens)
            call.forced = self.retry_due(call, row) if is_next else None
        elif end.pushback == "stop":
            call.is_stopped = True
        elif end.pushback is not None:
            call.forced = end.moment + end.pushback * 10**6
        else:
            call.forced = end.moment
            call.is_stopped = call.run is not None and not call.run.is_above(end.tokens)

    def retry_due(self, call, row):
        end = row.end
        if end.pushback is not None:
            return end.moment + end.pushback * 10**6
        end.cap = capped(call.plan, row.number - call.delayed)
        end.wait = spread(end.cap, end.word or 0)
        return end.moment + end.wait

    def is_last(self, call):
        """No attempt of a hedged call runs or waits, and none is due."""
        return self.next_due(call) is None and not any(row.is_outstanding or row.place in self.queue for row in call.rows)

    def is_final(self, row):
        """Whether a counted end of an uncommitted call ends it."""
        plan, end = row.call.plan, row.end
        if plan is None or end.code not in plan.codes:
            return True
        if plan.kind == "retry":
            return not self.is_licensed(row, end.code, end.pushback, end.tokens)
        return self.is_last(row.call)
