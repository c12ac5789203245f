"""Timeout, LoadShed, Filter, AsyncFilter, Reconnect and Steer over a hostile party."""

import sys

from stage import Answered, Hostile, Inner, Part, Play, Response, Stage, how_many, within, write_hostile

PASSES = 64


class Timeout:
    """A service whose calls have a deadline each."""

    def __init__(self, stage, inner, duration):
        self.stage = stage
        self.inner = inner
        self.duration = duration

    def poll(self):
        return within(self.inner.poll())

    def call(self, request):
        response = self.inner.call(request)
        deadline = self.stage.read() + self.duration
        self.stage.note("clock shared")
        return Timed(self.stage, response, deadline)

    def clone(self):
        inner = self.inner.clone()
        if inner is None:
            return None
        self.stage.note("clock shared")
        return Timeout(self.stage, inner, self.duration)

    def drop(self):
        self.inner.drop()
        self.stage.drops("clock")


class Timed:
    """The response, asked before the clock. Past its deadline it is an error."""

    def __init__(self, stage, response, deadline):
        self.stage = stage
        self.response = response
        self.deadline = deadline

    def poll(self):
        answer = self.response.poll()
        if answer != "pending":
            return within(answer)
        return "error request timed out" if self.stage.read() >= self.deadline else "pending"

    def drop(self):
        self.response.drop()
        self.stage.drops("clock")


def timeout(rng):
    stage = Stage()
    duration = rng.choice([0, 1, 10, 10, 1000, 2**64 - 1])
    play = Play(stage, f"timeout {duration}", Timeout(stage, Inner(stage.services, "s"), duration))
    marks = lambda: [future.deadline for future in play.futures[-4:] if future]
    return Hostile(rng, play, marks=marks).steps(how_many(rng))


class LoadShed:
    """A flag: whether the last poll found the inner service ready and no call came since."""

    def __init__(self, inner):
        self.inner = inner
        self.flag = False

    def poll(self):
        answer = self.inner.poll()
        self.flag = answer == "ready"
        return "ready" if answer == "pending" else within(answer)

    def call(self, request):
        response = self.inner.call(request) if self.flag else None
        self.flag = False
        return Shed(response)

    def clone(self):
        inner = self.inner.clone()
        return None if inner is None else LoadShed(inner)

    def drop(self):
        self.inner.drop()


class Shed:
    """A response, or none."""

    def __init__(self, response):
        self.response = response

    def poll(self):
        return within(self.response.poll()) if self.response else "error service overloaded"

    def drop(self):
        if self.response:
            self.response.drop()


def load_shed(rng):
    stage = Stage()
    play = Play(stage, "load_shed", LoadShed(Inner(stage.services, "s")), always=True)
    return Hostile(rng, play).steps(how_many(rng))


class Doubling(Part):
    """The predicate, which refuses requests from 100 on and doubles the others."""

    def check(self, request):
        self.plan.stage.note(f"checked {request}")
        return request * 2 if request < 100 else None

    def clone(self):
        copy = self.plan.clone(self.name)
        return None if copy is None else Doubling(self.plan, copy)


class Filtering:
    """What both filters have in common."""

    def __init__(self, stage, inner, predicate):
        self.stage = stage
        self.inner = inner
        self.predicate = predicate

    def poll(self):
        return within(self.inner.poll())

    def parts_cloned(self):
        """Clones of both, or of none."""
        inner = self.inner.clone()
        predicate = inner and self.predicate.clone()
        if inner and not predicate:
            inner.drop()
        return predicate and (inner, predicate)

    def drop(self):
        self.inner.drop()
        self.predicate.drop()


class Filter(Filtering):
    def call(self, request):
        checked = self.predicate.check(request)
        return Filtered(request, None if checked is None else self.inner.call(checked))

    def clone(self):
        parts = self.parts_cloned()
        return parts and Filter(self.stage, *parts)


class Filtered(Answered):
    """The response, or none after a refused check."""

    def __init__(self, request, response):
        super().__init__(response)
        self.request = request

    def poll(self):
        return super().poll() if self.response else f"error Rejected({self.request})"


def filtered(rng):
    stage = Stage()
    service = Filter(stage, Inner(stage.services, "s"), Doubling(stage.others, "p"))
    return Hostile(rng, Play(stage, "filter", service), others=True).steps(how_many(rng))


class AsyncFilter(Filtering):
    """A call leaves a clone of the inner service behind, and the polled one goes with the check."""

    def __init__(self, stage, inner, predicate, polls):
        super().__init__(stage, inner, predicate)
        self.polls = polls

    def call(self, request):
        clone = self.inner.clone()
        if clone is None:
            return Checking(self.stage, request, None, None, 0)
        polled, self.inner = self.inner, clone
        return Checking(self.stage, request, self.predicate.check(request), polled, self.polls)

    def clone(self):
        parts = self.parts_cloned()
        return parts and AsyncFilter(self.stage, *parts, self.polls)


class Checking:
    """A check beside the polled service, and then its response; or neither, where its clone was refused."""

    def __init__(self, stage, request, checked, polled, polls):
        self.stage = stage
        self.request = request
        self.checked = checked
        self.polled = polled
        self.polls = polls
        self.response = None

    def poll(self):
        if self.polled:
            if self.polls:
                self.polls -= 1
                self.stage.note("c pending")
                return "pending"
            self.stage.note("c ready")
            if self.checked is None:
                return f"error Rejected({self.request})"
            self.response = self.polled.call(self.checked)
            self.drop_check()
        return within(self.response.poll()) if self.response else "error out of memory"

    def drop_check(self):
        self.stage.drops("c")
        self.polled.drop()
        self.polled = None

    def drop(self):
        if self.polled:
            self.drop_check()
        elif self.response:
            self.response.drop()


def async_filter(rng):
    stage = Stage()
    polls = rng.randrange(4)
    service = AsyncFilter(stage, Inner(stage.services, "s"), Doubling(stage.others, "p"), polls)
    return Hostile(rng, Play(stage, f"async_filter {polls}", service), others=True).steps(how_many(rng))


class Maker(Inner):
    """Makes services of the other side."""

    def call(self, _target):
        self.called(0)
        return Connect(self.plan, f"{self.name}(0)", 0)


class Connect(Response):
    """A service in the making, whose name it has from the call on unless it will fail."""

    def __init__(self, plan, name, request):
        super().__init__(plan, name, request)
        self.service = None
        if self.polls is None or self.is_later or self.answer.startswith("ok "):
            self.service = Inner(plan.stage.others, plan.stage.copy_of("s"))

    # An answer that is given to a maker's call by the script isn't waited for.
    def is_there(self):
        return self.polls == 0 and not self.is_later

    def take(self):
        service, self.service = self.service, None
        return service

    def drop(self):
        super().drop()
        if self.service:
            self.service.drop()


class Reconnect:
    """Idle, connecting or connected, beside the error of the last connect that failed."""

    def __init__(self, stage, linked):
        self.stage = stage
        self.maker = Maker(stage.services, "m")
        self.target = Part(stage.services, "p")
        self.state = Inner(stage.others, "a") if linked else None
        self.error = None

    def poll(self):
        for _ in range(PASSES):
            if answer := self.go_on():
                return answer
        return "pending"

    def go_on(self):
        """One pass: an answer, or none."""
        if self.state is None:
            return self.begin()
        answer = self.state.poll()
        if answer == "pending":
            return answer
        if isinstance(self.state, Connect):
            return self.connected(answer)
        if answer == "ready":
            return answer
        self.state.drop()
        self.state = None
        return None

    def begin(self):
        answer = self.maker.poll()
        if answer != "ready":
            return within(answer, "Make")
        target = self.target.clone()
        if target is None:
            return "error out of memory"
        self.state = self.maker.call(target)
        target.drop()
        return None

    def connected(self, answer):
        connect, self.state = self.state, self.state.take()
        connect.drop()
        if self.state:
            return None
        self.error = within(answer, "Make")
        return "ready"

    def call(self, request):
        if self.error:
            error, self.error = self.error, None
            return Linked(None, error)
        return Linked(self.state.call(request), None)

    def drop(self):
        self.maker.drop()
        if self.state:
            self.state.drop()
        self.target.drop()


class Linked:
    """A response, or the error of a connect."""

    def __init__(self, response, error):
        self.response = response
        self.error = error

    def poll(self):
        return self.error or within(self.response.poll())

    def drop(self):
        if self.response:
            self.response.drop()


class HostileMaker(Hostile):
    """The maker, its connects and its links fail often."""

    WEIGHTS = Hostile.WEIGHTS | {"extra": 30, "turn": 6}

    def __init__(self, rng, play):
        extras = [self.maker_fails, self.connect_fails, self.connect_fails, self.link_fails, self.link_fails]
        super().__init__(rng, play, clones=False, others=True, extras=extras)

    def maker_fails(self):
        self.set_readiness("", self.failing())

    def connect_fails(self):
        self.set_replies("", [f"err {self.rng.randrange(256)}", self.rng.choice(self.replies_in_time())])

    def link_fails(self):
        self.set_readiness("others ", self.failing())

    def failing(self):
        return [f"error {self.rng.randrange(256)}", self.state()]


def reconnect(rng):
    stage = Stage()
    linked = rng.random() < 0.3
    play = Play(stage, "reconnect linked" if linked else "reconnect", Reconnect(stage, linked))
    return HostileMaker(rng, play).steps(how_many(rng))


class Steer:
    """A list of the services that are to be asked, at first all."""

    def __init__(self, stage, picker, services, place, turns):
        self.stage = stage
        self.picker = picker
        self.services = services
        self.place = place
        self.turns = turns
        self.listed = list(range(len(services)))

    def poll(self):
        while self.listed:
            answer = self.services[self.listed[0]].poll()
            if answer != "ready":
                return answer
            self.listed.pop(0)
        return "ready"

    def call(self, request):
        count = len(self.services)
        self.stage.note(f"picked for {request} of {count}")
        index = self.place if self.place < count else 0
        if self.turns:
            self.place = index + 1
        self.listed.append(index)
        return self.services[index].call(request)

    def clone(self):
        picker = self.picker.clone()
        if picker is None:
            return None
        services = []
        for service in self.services:
            copy = service.clone()
            if copy is None:
                for part in [*services, picker]:
                    part.drop()
                return None
            services.append(copy)
        return Steer(self.stage, picker, services, self.place, self.turns)

    def drop(self):
        for part in [self.picker, *self.services]:
            part.drop()


def steer(rng):
    stage = Stage()
    count, place = rng.randrange(1, 6), rng.randrange(6)
    services = [Inner(stage.others if number else stage.services, "abcccc"[number]) for number in range(count)]
    turns = rng.random() < 0.75
    service = Steer(stage, Part(stage.others, "p"), services, place, turns)
    return Hostile(rng, Play(stage, f"steer {count} {place}{' turning' * turns}", service), others=True).steps(how_many(rng))


if __name__ == "__main__":
    for name, scripts in [
        ("timeout", timeout),
        ("load_shed", load_shed),
        ("filter", filtered),
        ("async_filter", async_filter),
        ("reconnect", reconnect),
        ("steer", steer),
    ]:
        write_hostile(sys.argv[1], "scripted_ware", name, scripts)
