"""RateLimit and ConcurrencyLimit over a hostile party."""

import sys

from stage import HANDLES, Hostile, Inner, Play, Shares, Stage, how_many, within, write_hostile


class RateLimit:
    """The moments of all calls, the newest last."""

    def __init__(self, stage, number, period):
        self.stage = stage
        self.inner = Inner(stage.services, "s")
        self.number = number
        self.period = period
        self.moments = []

    def free_from(self):
        """The moment from which a further call may be made, if so many were made."""
        return self.moments[-self.number] + self.period if len(self.moments) >= self.number else None

    def poll(self):
        free_from = self.free_from()
        if free_from is not None and free_from > self.stage.read():
            return "pending"
        return self.inner.poll()

    def call(self, request):
        self.moments.append(self.stage.read())
        return self.inner.call(request)

    def drop(self):
        self.inner.drop()
        self.stage.drops("clock")


def rate_limit(rng):
    stage = Stage()
    number, period = rng.choice([1, 1, 2, 3, 5]), rng.choice([1, 2, 5, 10, 10, 10, 100, 2**64 - 1 if rng.random() < 0.3 else 3])
    service = RateLimit(stage, number, period)
    play = Play(stage, f"rate_limit {number} {period}", service)
    marks = lambda: [moment + period for moment in service.moments[-number:]]
    return Hostile(rng, play, clones=False, marks=marks).steps(how_many(rng))


class Line:
    """Tickets in the order of asking, each held or waiting under a key. The first `most` of them have a permit."""

    HELD = None

    def __init__(self, most):
        self.most = most
        self.tickets = []
        self.keys = []
        self.unused = []

    def has_permit(self, place):
        return place < self.most

    def join(self):
        """The key under which the ticket waits, or none where it is held."""
        if self.has_permit(len(self.tickets)):
            self.tickets.append(self.HELD)
            return None
        self.tickets.append(self.next_key())
        return self.tickets[-1]

    # As of a slab: the key that ended last comes first, and then a new one.
    def next_key(self):
        if not self.unused:
            self.unused.append(len(self.keys))
            self.keys.append(self.unused[-1])
        return self.unused.pop()

    def look(self, key):
        """Whether the ticket has its permit, and is held from then on."""
        place = self.tickets.index(key)
        if not self.has_permit(place):
            return False
        self.tickets[place] = self.HELD
        self.unused.append(key)
        return True

    def cancel(self, key):
        self.tickets.remove(key)
        self.unused.append(key)

    def release(self):
        self.tickets.remove(self.HELD)

    def free(self):
        return max(0, self.most - len(self.tickets))


class Latch(Shares):
    """One line behind its shares."""

    def __init__(self, stage, most, shares):
        super().__init__(stage, shares)
        self.line = Line(most)

    def step(self, step, key=None, waited=False):
        self.stage.note(f"latch {'waited' if waited else 'stepped'} {step}" + (f"({key})" if key is not None else ""))

    def give_back(self):
        """The drop of a permit."""
        self.step("Release")
        self.line.release()
        self.drop()

    def drop(self):
        self.stage.drops("latch")


class ConcurrencyLimit:
    """A service that asks for a permit, waits under a key, or has a permit."""

    def __init__(self, inner, latch):
        self.inner = inner
        self.latch = latch
        self.key = None
        self.has_permit = False

    def poll(self):
        if not self.has_permit and (answer := self.ask()):
            return answer
        return within(self.inner.poll())

    def ask(self):
        """Asks for the permit. There is no answer where it came."""
        if not self.latch.share():
            return "error out of memory"
        line = self.latch.line
        if self.key is None:
            self.latch.step("Join", waited=True)
            self.key = line.join()
        else:
            self.latch.step("Look", self.key, waited=True)
            if line.look(self.key):
                self.key = None
        self.has_permit = self.key is None
        if self.has_permit:
            return None
        self.latch.drop()
        return "pending"

    def call(self, request):
        assert self.has_permit
        self.has_permit = False
        return Permitted(self.inner.call(request), self.latch)

    def clone(self):
        inner = self.inner.clone()
        if inner is None:
            return None
        if not self.latch.share():
            inner.drop()
            return None
        return ConcurrencyLimit(inner, self.latch)

    def drop(self):
        self.inner.drop()
        if self.key is not None:
            self.latch.step("Cancel", self.key)
            self.latch.line.cancel(self.key)
        self.latch.drop()
        if self.has_permit:
            self.latch.give_back()


class Permitted:
    """A response with its permit, which goes back as it is dropped."""

    def __init__(self, response, latch):
        self.response = response
        self.latch = latch

    def poll(self):
        return within(self.response.poll())

    def drop(self):
        self.response.drop()
        self.latch.give_back()


class Watcher:
    """The share that is kept beside the service. At the end it tells how many permits are free."""

    def __init__(self, latch):
        self.latch = latch

    def drop(self):
        self.latch.step("Free")
        self.latch.drop()
        self.latch.stage.note(f"{self.latch.line.free()} of {self.latch.line.most} permits free")


class Crowd(Hostile):
    """Handles wait for each other, so more is cloned and dropped."""

    WEIGHTS = Hostile.WEIGHTS | {"clone": 8, "drop_handle": 3, "drop_future": 20}


def concurrency_limit(rng):
    stage = Stage()
    most, shares = rng.choice([1, 1, 1, 2, 2, 3, rng.randrange(9)]), rng.choice([255, 255, 255, rng.randrange(60)])
    latch = Latch(stage, most, shares)
    # A share is kept beside the service, unless the first is refused.
    is_watched = shares > 0 and latch.share()
    first = f"concurrency_limit {most} {shares}{' watched' * is_watched}"
    service = ConcurrencyLimit(Inner(stage.services, "s"), latch)
    play = Play(stage, first, service, ended=[Watcher(latch)] * is_watched)

    def free():
        latch.step("Free")
        play.ask("free", latch.line.free())

    hostile = Crowd(rng, play, extras=[free] * is_watched)
    for _ in range(rng.randrange(1, len(HANDLES))):
        hostile.clone()
    return hostile.steps(how_many(rng))


if __name__ == "__main__":
    for name, scripts in [("rate_limit", rate_limit), ("concurrency_limit", concurrency_limit)]:
        write_hostile(sys.argv[1], "scripted_ware", name, scripts)
