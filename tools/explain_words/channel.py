"""A session followed by its rules from its report alone: each entry's event, what follows of it, and at the end each row as the report
has it. Where the rules give something else than the report, the report is damaged, and the line is named."""

from heapq import heappop, heappush

from .attempts import MOST_UNCOMMITTED, Attempts
from .config import Config, ConfigFault, read_config
from .policies import Policies, connect_wait
from .reading import Reading
from .report import ROW, Fault, entries_of
from .session import CONNECTING, FAILURE, IDLE, SHUTDOWN, Call, Link, Run, Stamp

COLUMNS = [
    "row",
    "call",
    "number",
    "kind",
    "due",
    "placed",
    "generation",
    "sub",
    "link",
    "stream",
    "ended",
    "code",
    "pushback",
    "seen",
    "cause",
    "committed",
    "tokens",
    "word",
]


class Channel(Attempts, Policies, Reading):
    """What the channel is after the entries so far, and the history that people ask for."""

    def __init__(self, report, has_log=False):
        self.report = report
        self.calls, self.rows, self.links, self.subs, self.generations, self.configs, self.runs = [], [], [], [], [], [], []
        self.results, self.unnoted, self.states, self.shut = [], [], [], None
        self.current = self.pending = self.answered = None
        self.by_address, self.queue, self.fresh, self.served_state = {}, {}, [], None
        self.dues, self.timers, self.deadlines, self.unconfigured = [], [], [], {}
        self.resets, self.touched, self.is_changed, self.is_net_changed, self.whole = [], set(), True, True, None
        self.entry = self.moment = self.word = self.drawn = 0
        self.first_moment = None
        self.moments, self.log = [], {} if has_log else None
        if not has_log:
            self.note = ignore

    def note(self, kind, *things):
        self.log.setdefault(self.entry, []).append((kind, *things))

    def fault(self, words):
        raise Fault(self.report.line_of_entry(self.entry), words)

    def test_digits(self, text):
        """The digits of hex at the end of a text that has an even number of letters without them."""
        if len(text) & 1:
            self.fault("its bytes have an odd digit")

    def bytes_of(self, field):
        self.test_digits(field)
        return bytes.fromhex(field)

    # ---- the entries

    def run(self):
        handlers = {name[3:]: getattr(self, name) for name in dir(self) if name.startswith("on_")}
        add_moment, deadlines, dues, timers = self.moments.append, self.deadlines, self.dues, self.timers
        for number, moment, word, name, fields in entries_of(self.report):
            reply = fields[-1]
            add_moment(moment)
            self.entry, self.moment, self.word, self.drawn = number, moment, word, 0
            if deadlines and deadlines[0][0] <= moment:
                self.end_by_deadline()
            if reply[0] == "r":
                self.note("EventRefused", name, int(reply[8:]))
                if name in ("arrived", "send", "resolved") and fields[1] != "-":
                    self.test_digits(fields[1])
            else:
                handlers[name](fields, reply)
                if self.resets:
                    self.flush_resets()
            if self.is_changed or (dues and dues[0][0] <= moment) or (timers and timers[0][0] <= moment):
                self.settle()
        self.first_moment = self.moments[0] if self.moments else None
        self.test_rows()
        return self

    def on_tick(self, fields, reply):
        self.note("EventAnswered", "tick", reply)

    def end_by_deadline(self):
        """Before the event: calls whose deadline has come, the earliest first."""
        while self.deadlines and self.deadlines[0][0] <= self.moment:
            deadline, number = heappop(self.deadlines)
            call = self.calls[number - 1]
            if call.end is None and call.deadline == deadline:
                self.end_call(call, "deadline")
                self.flush_resets()

    def settle(self):
        """After the event: dials and backoffs, policies, calls without a configuration, attempts that are due, picks."""
        if self.timers and self.timers[0][0] <= self.moment:
            self.clock()
        while self.is_net_changed and (self.take_over() or self.connect_wished()):
            pass
        if self.unconfigured:
            self.configure_calls()
        while (self.dues and self.dues[0][0] <= self.moment) or self.fresh or self.is_net_changed:
            has_made, has_served = self.make_due(), self.serve()
            if not has_made and not has_served:
                break
        if self.touched:
            self.stamp_gone()
        if self.is_net_changed and (not self.states or self.states[-1][1] != self.state()):
            self.states.append((Stamp(self.entry, self.moment), self.state()))
        self.is_changed = self.is_net_changed = False

    def state(self):
        if self.shut:
            return SHUTDOWN
        if self.current:
            return self.state_of(self.current)
        return FAILURE if self.answered and not self.configs else IDLE

    def stamp_gone(self):
        for link in self.touched:
            is_leaving = link.goaway or link.sub.state == SHUTDOWN
            if link.gone is None and (link.over or (is_leaving and not link.rows)):
                link.gone = Stamp(self.entry, self.moment, link.over.cause if link.over else "GOAWAY" if link.goaway else "shut")
        self.touched = set()

    # ---- calls

    def on_begin(self, fields, reply):
        path, wait, timeout, meta, _ = fields
        if reply != f"call {len(self.calls) + 1}":
            self.fault(f"the calls are numbered in their order; this is call {len(self.calls) + 1}")
        timeout = None if timeout == "-" else int(timeout)
        call = Call(len(self.calls) + 1, self.entry, self.moment, path, wait, timeout, meta)
        self.calls.append(call)
        self.unconfigured[call.number] = call
        self.is_changed = True
        self.note("CallBegins", call)
        if timeout is not None:
            self.set_deadline(call)

    def set_deadline(self, call):
        times = [time for time in (call.timeout, call.method and call.method.timeout) if time is not None]
        if times and call.deadline != call.moment + min(times):
            call.deadline = call.moment + min(times)
            heappush(self.deadlines, (call.deadline, call.number))

    def configure_calls(self):
        if self.configs:
            calls, self.unconfigured = self.unconfigured, {}
            for call in calls.values():
                self.configure(call)
        elif self.answered:
            for call in [call for call in self.unconfigured.values() if not call.waits]:
                self.end_call(call, "noconfig")
                self.flush_resets()

    def configure(self, call):
        config, call.run = self.configs[-1]
        call.config, call.configured, call.configured_at = len(self.configs), self.entry, self.moment
        call.method, call.name = config.choose(call.path)
        if call.wait == "-":
            call.waits = bool(call.method.wait)
        if call.method.request is not None:
            call.request = min(call.request, call.method.request)
        if call.method.response is not None:
            call.response = min(call.response, call.method.response)
        if call.method.timeout is not None:
            self.set_deadline(call)
        call.forced, call.is_stopped = self.moment, False
        self.note("CallConfigured", call)
        self.schedule(call)
        if call.too_long and call.too_long[0] > call.request:
            call.too_long = (Stamp(self.entry, self.moment), "request", call.too_long[0])
            self.end_call(call, "request")
        else:
            call.too_long = None

    def call_of(self, number):
        number = int(number)
        if not 1 <= number <= len(self.calls):
            self.fault(f"no call {number} was begun")
        return self.calls[number - 1]

    def on_send(self, fields, reply):
        call, size = self.call_of(fields[0]), 0 if fields[1] == "-" else len(fields[1]) // 2
        if size:
            self.test_digits(fields[1])
        if reply != "done":
            call.full = Stamp(self.entry, self.moment)
            self.note("EventAnswered", "send", reply)
        elif call.configured and size > call.request:
            self.note("EventAnswered", "send", reply)
            call.too_long = (Stamp(self.entry, self.moment), "request", size)
            self.end_call(call, "request")
        else:
            call.messages, call.accepted = call.messages + 1, call.accepted + 5 + size
            self.note("MessageAccepted", call, size)
            if not call.configured:
                call.too_long = (max(size, call.too_long[0] if call.too_long else 0),)
            if call.committed is None and call.accepted > MOST_UNCOMMITTED:
                rows = [row for row in call.rows if row.is_outstanding]
                self.commit(min(rows, key=lambda row: (-row.written, row.number)), "overflow") if rows else self.fault(
                    "no attempt had room for it"
                )

    def on_finish(self, fields, reply):
        call = self.call_of(fields[0])
        call.finished = self.entry
        self.note("RequestFinished", call)

    def on_take(self, fields, reply):
        call = self.call_of(fields[0])
        if reply == "notyet":
            self.note("EventAnswered", "take", reply)
            return
        if reply[0] == "e":
            _, code, _, _, cause = reply.split(" ")
            if call.end is None or (int(code), cause) != (call.end_code(), call.end.cause):
                self.fault(
                    f"the take says that the call ended with {code} ({cause}), and by the rules it "
                    + (f"ended with {call.end_code()} ({call.end.cause})" if call.end else "is open")
                )
            call.taken_end = self.entry
        else:
            call.taken += 1
            if reply[0] == "m" and reply != "message -":
                self.test_digits(reply)
        if self.log is not None:
            self.note("ItemTaken", call, reply.split(" ", 1)[0])

    def on_cancel(self, fields, reply):
        self.note("EventAnswered", "cancel", reply)
        self.end_call(self.call_of(fields[0]), "cancelled")

    def on_shutdown(self, fields, reply):
        self.note("ChannelShuts")
        if not self.shut:
            self.shut = Stamp(self.entry, self.moment)
            for call in self.calls:
                if call.end is None:
                    self.end_call(call, "shut")
                    self.flush_resets()
            self.unconfigured = {}
            for generation in self.live():
                self.retire(generation)
                self.note("PolicyRetired", generation)
            self.current = self.pending = None
            self.drop_unlisted()
            self.is_changed = self.is_net_changed = True

    # ---- resolver and subchannels

    def on_resolved(self, fields, reply):
        self.answered = self.is_changed = self.is_net_changed = True
        self.results.append((Stamp(self.entry, self.moment), reply))
        addresses = () if fields[0] == "-" else tuple(fields[0].split(","))
        self.test_digits(fields[1] if fields[1] != "-" else "")
        if reply == "done":
            try:
                self.hold(Config() if fields[1] == "-" else read_config(self.bytes_of(fields[1])))
            except ConfigFault as fault:
                self.fault(f"its config has a fault, and its reply is 'done': {fault}")
        self.note("ConfigRead", reply)
        self.take_result(addresses)

    def hold(self, config):
        """The config in force for later calls. Configs of equal throttling, one after another, share the tokens."""
        last = self.configs[-1] if self.configs else (Config(), None)
        run = last[1] if config.throttle == last[0].throttle else None
        if config.throttle and run is None:
            run = Run(len(self.runs) + 1, *config.throttle, Stamp(self.entry, self.moment))
            self.runs.append(run)
        self.configs.append((config, run))

    def on_unresolved(self, fields, reply):
        self.answered = self.is_changed = self.is_net_changed = True
        self.results.append((Stamp(self.entry, self.moment), "unresolved"))
        self.note("ResolutionFailed")

    def sub_of(self, number):
        if not 1 <= int(number) <= len(self.subs):
            self.fault(f"there is no subchannel {number}")
        return self.subs[int(number) - 1]

    def on_dial(self, fields, reply):
        if reply == "notyet":
            self.note("EventAnswered", "dial", reply)
            return
        _, number, address, until = reply.split(" ")
        sub = self.sub_of(number)
        if sub.address != address or sub.state != CONNECTING or sub.until is not None:
            self.fault(f"subchannel {number} is not the one to dial: it is {sub.state}, of {sub.address}")
        wait = connect_wait(sub.dials + 1, self.next_word() if sub.dials else 0)
        sub.dials, sub.again, sub.until = sub.dials + 1, self.moment + wait, self.moment + max(wait, 20 * 10**9)
        if sub.until != int(until):
            self.fault(f"the dial ends at {sub.until}, and not at {until}")
        heappush(self.timers, (sub.until, sub.number))
        sub.tries.append([Stamp(self.entry, self.moment), sub.dials, None])
        self.note("DialTaken", sub, sub.again, sub.until)

    def on_up(self, fields, reply):
        sub = self.sub_of(fields[0])
        if reply != f"link {len(self.links) + 1}" or sub.state != CONNECTING or sub.until is None or sub.link:
            self.fault(f"link {len(self.links) + 1} is the next, of a subchannel that is dialled; subchannel {sub.number} is {sub.state}")
        link = Link(len(self.links) + 1, sub, Stamp(self.entry, self.moment))
        self.links.append(link)
        sub.link = link
        sub.tries[-1][2] = Stamp(self.entry, self.moment, "up")
        self.note("LinkUp", link)

    def on_nodial(self, fields, reply):
        sub = self.sub_of(fields[0])
        if sub.again is None:
            self.fault(f"subchannel {sub.number} was not dialled")
        sub.tries[-1][2] = Stamp(self.entry, self.moment, "failed")
        self.fail_sub(sub, "the dial failed", "DialFails")

    # ---- links

    def link_of(self, number):
        if not 1 <= int(number) <= len(self.links):
            self.fault(f"there is no link {number}")
        return self.links[int(number) - 1]

    def on_arrived(self, fields, reply):
        link = self.link_of(fields[0])
        piece = self.bytes_of(fields[1])
        link.bytes_in += len(piece)
        if self.log is not None:
            self.note("BytesArrive", link, len(piece))
            link.pieces.append(self.entry)
        self.read_piece(link, piece)

    def on_lost(self, fields, reply):
        link = self.link_of(fields[0])
        link.over = Stamp(self.entry, self.moment, "lost")
        self.note("LinkLost", link)
        self.link_over(link, one_by_one=True)
        self.is_changed = True

    def on_drain(self, fields, reply):
        self.note("EventAnswered", "drain", "octets")
        if reply != "octets -":
            link = self.link_of(fields[0])
            if self.log is not None:
                link.pieces.append(-self.entry)
            self.write_piece(link, self.bytes_of(reply[7:]))

    def on_ping(self, fields, reply):
        self.note("PingQueued", self.link_of(fields[0]))

    # ---- the rows

    def test_rows(self):
        """Each row of the report is what the events give."""
        count = 18 if self.report.version == 2 else 16
        for place, line in enumerate(self.report.row_lines(), 1):
            at = self.report.line_of_row(place)
            given = line.split(" ")
            if not ROW.fullmatch(line) or len(given) != count:
                raise Fault(at, f"it is no row: a row of version {self.report.version} has {count} fields")
            if place > len(self.rows):
                raise Fault(at, f"the events above give {len(self.rows)} rows")
            own = self.rows[place - 1].columns()[:count]
            if given != own:
                name, one, other = next(item for item in zip(COLUMNS, given, own) if item[1] != item[2])
                raise Fault(at, f"its {name} is {one}; the events above give {other}")
        last = self.report.end_line
        given = (len(self.calls), len(self.rows), len(self.links))
        if given != (self.report.calls, self.report.rows, self.report.links):
            raise Fault(last, "the events above give {} calls, {} rows and {} links".format(*given))


def ignore(*things):
    """No log is kept."""
