"""Subchannels, the load balancing policies over them, and the picks (connection backoff, connectivity semantics)."""

from heapq import heappop, heappush

from .session import CONNECTING, FAILURE, IDLE, READY, SHUTDOWN, Generation, Stamp, Sub

SECOND, WORDS = 10**9, 1 << 64
WIDTH = 8  # addresses in a tier of `priority`


def connect_wait(dials, word):
    """The wait of the n-th dial: 1 s, then times 1.6 up to 120 s, give or take a fifth."""
    cap = SECOND
    for _ in range(dials - 1):
        cap = min(cap * 1600 // 1000, 120 * SECOND)
    fifth = cap // 5
    return cap if dials == 1 else cap - fifth + word * (2 * fifth + 1) // WORDS


class Policies:
    """The part of the channel below the calls. A Channel has the rest."""

    # ---- subchannels

    def set_state(self, sub, state, why, action):
        sub.state = state
        sub.states.append((Stamp(self.entry, self.moment), state, why))
        self.is_changed = self.is_net_changed = True
        for generation in self.live():
            if sub.address in generation.addresses:
                generation.state = None
                if state == FAILURE:
                    generation.failed.add(sub.number)
                elif state == READY:
                    generation.failed.discard(sub.number)
        if state == FAILURE:
            heappush(self.timers, (sub.again, sub.number))
        self.note(action, sub, state)

    def fail_sub(self, sub, why, action):
        sub.until = sub.link = None
        self.set_state(sub, FAILURE, why, action)

    def sub_down(self, link, why):
        """The link of a subchannel went, or is going."""
        sub = link.sub
        if sub.link is link:
            sub.link = sub.until = None
            self.set_state(sub, IDLE if sub.state == READY else FAILURE, why, "LinkDown")

    def clock(self):
        """Dials that took too long, and backoffs that are over, by number."""
        due = set()
        while self.timers and self.timers[0][0] <= self.moment:
            due.add(heappop(self.timers)[1])
        for number in sorted(due):
            sub = self.subs[number - 1]
            if sub.state == CONNECTING and sub.until is not None and sub.until <= self.moment:
                if sub.link:
                    sub.link.over = Stamp(self.entry, self.moment, "timeout")
                    self.touched.add(sub.link)
                self.fail_sub(sub, "it was not READY in time", "ConnectTimesOut")
            if sub.state == FAILURE and sub.again <= self.moment:
                self.set_state(sub, IDLE, "its backoff is over", "BackoffEnds")

    # ---- generations

    def live(self):
        return [generation for generation in (self.current, self.pending) if generation]

    def view(self, generation):
        return [self.by_address[address] for address in generation.addresses if address in self.by_address]

    def state_of(self, generation):
        if generation.state is None:
            generation.state = self.computed_state(generation)
        return generation.state

    def computed_state(self, generation):
        subs = self.view(generation)
        if any(sub.state == READY for sub in subs):
            return READY
        if generation.kind == "round_robin":
            has_failed = all(sub.state == FAILURE for sub in subs)
        else:
            has_failed = all(sub.number in generation.failed for sub in subs)
        return FAILURE if has_failed else CONNECTING

    def tiers(self, generation):
        subs = self.view(generation)
        return [subs[at : at + WIDTH] for at in range(0, len(subs), WIDTH)]

    def wished(self, generation):
        """The subchannels that the policy wishes to be connected."""
        subs = self.view(generation)
        if generation.kind == "pick_first":
            return [] if any(sub.state == READY for sub in subs) else [sub for sub in subs if sub.state != FAILURE][:1]
        if generation.kind == "priority":
            subs = []
            for tier in self.tiers(generation):
                subs += tier
                if any(sub.state == READY for sub in tier) or not all(sub.number in generation.failed for sub in tier):
                    break
        return [sub for sub in subs if sub.state in (IDLE, CONNECTING)]

    def picked(self, generation):
        """The READY subchannel that the policy answers."""
        subs = self.view(generation)
        if generation.kind == "priority":
            subs = next(tier for tier in self.tiers(generation) if any(sub.state == READY for sub in tier))
        ready = [sub for sub in subs if sub.state == READY]
        return ready[0] if generation.kind == "pick_first" else ready[generation.turns % len(ready)]

    def retire(self, generation):
        generation.retired = Stamp(self.entry, self.moment)

    def take_result(self, addresses):
        """A result of the resolver, read by the kind of the config in force."""
        if not self.configs:
            return
        kind = self.configs[-1][0].kind
        if self.pending and self.pending.kind != kind:
            self.retire(self.pending)
            self.note("PolicyRetired", self.pending)
            self.pending = None
        if not any(generation.kind == kind for generation in self.live()):
            self.begin_generation(kind)
        for generation in self.live():
            if generation.kind == kind and generation.addresses != addresses:
                self.adopt(generation, addresses)
        self.drop_unlisted()
        for address in dict.fromkeys(address for generation in self.live() for address in generation.addresses):
            if address not in self.by_address:
                sub = Sub(len(self.subs) + 1, address, Stamp(self.entry, self.moment))
                self.subs.append(sub)
                self.by_address[address] = sub
                self.note("SubchannelAdded", sub)
                for generation in self.live():
                    generation.state = None
        self.is_changed = self.is_net_changed = True

    def begin_generation(self, kind):
        generation = Generation(len(self.generations) + 1, kind, Stamp(self.entry, self.moment))
        self.generations.append(generation)
        self.note("PolicyBegins", generation)
        if self.current is None:
            self.current = generation
            generation.activated = Stamp(self.entry, self.moment)
        else:
            self.pending = generation

    def adopt(self, generation, addresses):
        before, generation.addresses, generation.state = generation.failed, addresses, None
        generation.failed = {
            sub.number for sub in self.view(generation) if sub.state == FAILURE or (sub.number in before and sub.state != READY)
        }
        self.note("AddressesGiven", generation, addresses)

    def drop_unlisted(self):
        listed = {address for generation in self.live() for address in generation.addresses}
        for sub in sorted(self.by_address.values(), key=lambda sub: sub.number):
            if sub.address not in listed:
                del self.by_address[sub.address]
                if sub.link:
                    self.touched.add(sub.link)
                sub.link = sub.until = None
                self.set_state(sub, SHUTDOWN, "no policy has its address any more", "SubchannelShut")

    def take_over(self):
        """A pending policy takes over once it is READY or has failed, or the current one is not READY."""
        if not self.pending or not (self.state_of(self.pending) in (READY, FAILURE) or self.state_of(self.current) != READY):
            return False
        self.retire(self.current)
        self.current, self.pending = self.pending, None
        self.current.activated = Stamp(self.entry, self.moment)
        self.note("PolicyTakesOver", self.current)
        self.drop_unlisted()
        return True

    def connect_wished(self):
        wished = {sub for generation in self.live() for sub in self.wished(generation) if sub.state == IDLE}
        if wished:
            self.set_state(min(wished, key=lambda sub: sub.number), CONNECTING, "the policy wishes it connected", "SubchannelConnects")
        return bool(wished)

    # ---- picks

    def serve(self):
        """Asks the current policy for the attempts that wait, where it is READY, or has failed and the call does not wait for ready."""
        state = self.state_of(self.current) if self.current else None
        if state == self.served_state and not self.fresh:
            return False
        rows = self.queue.values() if state != self.served_state else self.fresh
        rows = list(rows) if state in (READY, FAILURE) else []
        if len(rows) > 1:
            rows.sort(key=lambda row: (row.call.number, row.place))
        self.served_state, self.fresh, did = state, [], False
        for row in rows:
            if row.place in self.queue and (state == READY or not row.call.waits):
                did = True
                self.ask(row, state)
        return did

    def ask(self, row, state):
        generation = self.current
        if state == READY:
            sub = self.picked(generation)
            generation.turns += 1
            self.note("PickRequested", row, generation, sub)
            self.place(row, generation, sub)
        else:
            generation.turns += 1
            self.note("PickRequested", row, generation, None)
            self.end_row(row, 14, "pick")
            self.flush_resets()

    def place(self, row, generation, sub):
        call = row.call
        del self.queue[row.place]
        row.placed, row.generation, row.sub, row.link = Stamp(self.entry, self.moment), generation, sub, sub.link
        sub.link.rows[row.place] = row
        sub.link.waiting.append(row)
        self.note("AttemptPlaced", row)
        if row is call.newest:
            call.placed = self.moment
            self.schedule(call)
