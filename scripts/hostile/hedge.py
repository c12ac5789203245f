"""Select, Delay, Latency and Hedge over a hostile party."""

import sys

from retry import Refused, Sleep
from stage import LAST_MOMENT, Hostile, Inner, Part, Play, Stage, how_many, within, write_hostile

NO_COPY = 90
ONCE = 91
MILLISECOND = 10**6


class Twice(Part):
    """Copies each request but one, lets each but one be made again, and delays each by as many nanoseconds as it says."""

    def clone(self):
        copy = self.plan.clone(self.name)
        return copy and Twice(self.plan, copy)

    def copied(self, request):
        self.plan.stage.note(f"{'left' if request == NO_COPY else 'copied'} {request}")
        return None if request == NO_COPY else request

    def delay(self, request):
        self.plan.stage.note(f"delay {request}")
        return request

    def allows(self, request):
        self.plan.stage.note(f"allowed {request} {'false' if request == ONCE else 'true'}")
        return request != ONCE


class Longest:
    def delay(self, request):
        return LAST_MOMENT

    def drop(self):
        pass


class Nest:
    """Parts that are dropped in this order, where they are there."""

    def __init__(self, *parts):
        self.parts = parts

    def drop(self):
        for part in self.parts:
            if part:
                part.drop()


class Shared:
    """A share of the clock."""

    def __init__(self, stage):
        self.stage = stage
        stage.note("clock shared")

    def drop(self):
        self.stage.drops("clock")


class Select(Nest):
    """Both sides are asked, and the first's error goes before one of the second."""

    def __init__(self, policy, first, second):
        super().__init__(policy, first, second)
        self.policy = policy
        self.first = first
        self.second = second

    def poll(self):
        answers = within(self.first.poll(), "First"), within(self.second.poll(), "Second")
        errors = [answer for answer in answers if answer.startswith("error ")]
        if errors:
            return errors[0]
        return "pending" if "pending" in answers else "ready"

    def call(self, request):
        copy = self.policy.copied(request)
        second = None if copy is None else self.second.call(copy)
        return Either(self.first.call(request), second)


class Either(Nest):
    """The first answer of two calls, of which the second may not be made."""

    def __init__(self, first, second):
        super().__init__(first, second)
        self.first = first
        self.second = second

    def poll(self):
        answer = within(self.first.poll(), "First")
        return within(self.second.poll(), "Second") if answer == "pending" and self.second else answer


class Delay(Nest):
    """A clone waits for each call. It is always ready."""

    def __init__(self, stage, policy, inner, clock):
        super().__init__(policy, inner, clock)
        self.stage = stage
        self.policy = policy
        self.inner = inner

    def poll(self):
        return "ready"

    def call(self, request):
        delay = self.policy.delay(request)
        sleep = Sleep(self.stage, delay)
        inner = self.inner.clone()
        if inner:
            return Delayed(sleep, inner, request)
        sleep.drop()
        return Refused()


class Delayed:
    """A wait, then the readiness of the clone, and then its response. The wait is dropped once it is over, the clone once it was called, and the
    response once it is there. An error drops neither."""

    def __init__(self, sleep, inner, request):
        self.sleep = sleep
        self.inner = inner
        self.request = request
        self.response = None

    def poll(self):
        if self.sleep:
            if self.sleep.poll() == "pending":
                return "pending"
            self.sleep.drop()
            self.sleep = None
        return within(self.ask() if self.inner else self.answer())

    def ask(self):
        answer = self.inner.poll()
        if answer != "ready":
            return answer
        self.response = self.inner.call(self.request)
        self.inner.drop()
        self.inner = None
        return self.answer()

    def answer(self):
        answer = self.response.poll()
        if answer.startswith("ok "):
            self.response.drop()
            self.response = None
        return answer

    def drop(self):
        Nest(self.sleep, self.inner, self.response).drop()


class Latency(Nest):
    """A clone of the recorder is told how long each call took that answered well."""

    def __init__(self, stage, recorder, inner, clock):
        super().__init__(recorder, inner, clock)
        self.stage = stage
        self.recorder = recorder
        self.inner = inner

    def poll(self):
        return self.inner.poll()

    def call(self, request):
        start = self.stage.read()
        recorder = self.recorder.clone()
        response = self.inner.call(request)
        return Timed(self.stage, start, recorder, response)

    def clone(self):
        recorder = self.recorder.clone()
        inner = recorder and self.inner.clone()
        if recorder and not inner:
            recorder.drop()
        return inner and Latency(self.stage, recorder, inner, Shared(self.stage))


class Timed(Nest):
    """A clock that went back gives no time."""

    def __init__(self, stage, start, recorder, response):
        super().__init__(recorder, response, Shared(stage))
        self.stage = stage
        self.start = start
        self.recorder = recorder
        self.response = response

    def poll(self):
        answer = self.response.poll()
        if answer.startswith("ok ") and self.recorder:
            self.recorder.record(max(self.stage.read() - self.start, 0))
        return answer


class Recorder(Part):
    def clone(self):
        copy = self.plan.clone(self.name)
        return copy and Recorder(self.plan, copy)

    def record(self, latency):
        self.plan.stage.note(f"recorded {latency}")


class Periods:
    """All points, each with the period in which it is read, and the present period, which never goes back."""

    def __init__(self, length, made):
        self.length = length
        self.made = made
        self.present = 0
        self.points = []

    def known(self):
        return [millis for period, millis in self.points if period == self.present]


class Histogram:
    """A share of the points, whose latch may note its steps. Each step first moves on to the moment's period."""

    def __init__(self, stage, periods, is_noted):
        self.stage = stage
        self.periods = periods
        self.is_noted = is_noted
        stage.note("clock shared")

    def note(self, text):
        if self.is_noted:
            self.stage.note(f"latch {text}")

    def step(self, name, *values):
        periods, moment = self.periods, self.stage.read()
        self.note(f"stepped {name}({', '.join(map(str, (moment, *values)))})")
        periods.present = max(periods.present, (moment - periods.made) // periods.length)

    def seed(self, millis):
        self.step("Seed", millis)
        self.add(self.periods.present, millis)

    def record(self, latency):
        millis = -(-latency // MILLISECOND)
        self.step("Record", millis)
        self.add(self.periods.present + 1, millis)

    def add(self, period, millis):
        if self.stage.has_room("a point that found no room is left out"):
            self.periods.points.append((period, millis))

    def count(self):
        self.step("Points")
        return len(self.periods.known())

    def quantile(self, numerator, divisor):
        self.step("Quantile", f"Fraction {{ numerator: {numerator}, divisor: {divisor} }}")
        known = sorted(self.periods.known())
        place = -(-len(known) * numerator // divisor)
        return known[min(max(place, 1), len(known)) - 1] if known else 0

    def clone(self):
        self.note("shared")
        return Histogram(self.stage, self.periods, self.is_noted)

    def drop(self):
        self.note("dropped")
        self.stage.drops("clock")


class Quantile(Nest):
    """How long a second request waits."""

    def __init__(self, histogram, part):
        super().__init__(histogram)
        self.histogram = histogram
        self.part = part

    def delay(self, request):
        return min(self.histogram.quantile(*self.part) * MILLISECOND, LAST_MOMENT)


class Known(Nest):
    """A request is made twice where the policy copies it and so many latencies are known."""

    def __init__(self, policy, histogram, least):
        super().__init__(policy, histogram)
        self.policy = policy
        self.histogram = histogram
        self.least = least

    def copied(self, request):
        copy = self.policy.copied(request)
        return None if copy is None or self.histogram.count() < self.least else copy


class Filter:
    """A call leaves a clone behind, and asks the policy."""

    def __init__(self, inner, policy):
        self.inner = inner
        self.policy = policy

    def poll(self):
        return within(self.inner.poll())

    def call(self, request):
        copy = self.inner.clone()
        if copy is None:
            return Refused()
        inner, self.inner = self.inner, copy
        return Checked(inner, request, self.policy.allows(request))

    def clone(self):
        inner = self.inner.clone()
        policy = inner and self.policy.clone()
        if inner and not policy:
            inner.drop()
        return policy and Filter(inner, policy)

    def drop(self):
        Nest(self.inner, self.policy).drop()


class Checked:
    """A request that isn't allowed waits for ever. Another is made of the service that was polled."""

    def __init__(self, inner, request, is_allowed):
        self.inner = inner
        self.request = request
        self.is_allowed = is_allowed
        self.response = None

    def poll(self):
        if not self.is_allowed:
            return "pending"
        if self.inner:
            self.response = self.inner.call(self.request)
            self.inner.drop()
            self.inner = None
        return within(self.response.poll())

    def drop(self):
        Nest(self.inner, self.response).drop()


class Hedge:
    """The Select of a recorded clone, and of the service itself, recorded, filtered and delayed, with one error."""

    def __init__(self, stage, histogram, least, part):
        inner, policy = Inner(stage.services, "s"), Twice(stage.others, "p")
        first = Latency(stage, histogram.clone(), inner.clone(), Shared(stage))
        second = Filter(Latency(stage, histogram.clone(), inner, Shared(stage)), policy.clone())
        delayed = Delay(stage, Quantile(histogram.clone(), part), second, Shared(stage))
        self.select = Select(Known(policy, histogram, least), first, delayed)
        stage.drops("clock")

    def poll(self):
        return flat(self.select.poll())

    def call(self, request):
        return Flat(self.select.call(request))

    def drop(self):
        self.select.drop()


class Flat:
    def __init__(self, inner):
        self.inner = inner

    def poll(self):
        return flat(self.inner.poll())

    def drop(self):
        self.inner.drop()


def flat(answer):
    """The variants of the parts' errors are one."""
    if not answer.startswith("error "):
        return answer
    number = "".join(filter(str.isdigit, answer))
    return f"error Inner({number})" if number else "error out of memory"


class Hedging(Hostile):
    """Likes requests that the policy knows, and answers that come late."""

    WEIGHTS = {**Hostile.WEIGHTS, "future": 50, "drop_future": 4}

    def call(self):
        if not self.play.may_call[0] and self.rng.random() < 0.9:
            return self.poll()
        self.play.call(0, self.rng.choice([NO_COPY, ONCE, ONCE, *range(8), self.rng.randrange(256)]))

    def reply(self):
        return self.rng.choice(["never", "later", f"echo {self.rng.randrange(2, 9)}", super().reply()])


def select(rng):
    stage = Stage()
    service = Select(Twice(stage.others, "p"), Inner(stage.services, "a"), Inner(stage.others, "b"))
    return Hedging(rng, Play(stage, "select", service), clones=False, others=True).steps(how_many(rng))


def delay(rng):
    stage = Stage()
    is_longest = rng.random() < 0.1
    policy = Longest() if is_longest else Twice(stage.others, "p")
    service = Delay(stage, policy, Inner(stage.services, "s"), Shared(stage))
    stage.told()
    play = Play(stage, "longest_delay" if is_longest else "delay", service)
    sleeps = lambda: [future.sleep for future in play.futures[-6:] if isinstance(future, Delayed)]
    marks = lambda: [sleep.deadline for sleep in sleeps() if sleep]
    return Hedging(rng, play, clones=False, marks=marks).steps(how_many(rng))


def latency(rng):
    stage = Stage()
    service = Latency(stage, Recorder(stage.others, "n"), Inner(stage.services, "s"), Shared(stage))
    stage.told()
    play = Play(stage, "latency", service)
    marks = lambda: [future.start for future in play.futures[-4:] if future]
    return Hostile(rng, play, others=True, marks=marks).steps(how_many(rng))


def hedge(rng):
    stage = Stage()
    stage.moment = rng.choice([0, 3, rng.randint(0, LAST_MOMENT)])
    stage.services.replies = [rng.choice(["never", "later", "echo 9"]), "never", "echo 2", "echo 9"]
    around = f"at {stage.moment}; replies {', '.join(stage.services.replies)}"
    least, is_seeded = rng.choice([0, 0, 0, 1, 2, 10, 10, 11]), rng.random() < 0.6
    is_noted = rng.random() < 0.6
    if is_noted:
        part, periods, seeds = (9, 10), Periods(60_000 * MILLISECOND, 0), [1] * 8 + [10] * 2
        first = f"hedge {least}" + ("" if is_seeded else " unseeded")
    else:
        part, seeds = rng.choice([(9, 10), (1, 2), (0, 1), (1, 1), (3, 2)]), [1, 3]
        periods = Periods(rng.choice([1, 100, MILLISECOND, 5 * MILLISECOND]), stage.read())
        first = f"locked_hedge {least} {part[0]} {part[1]} {periods.length}" + (" seeded" if is_seeded else "")
    histogram = Histogram(stage, periods, is_noted)
    for millis in seeds if is_seeded else []:
        histogram.seed(millis)
    play = Play(stage, f"{first}; {around}", Hedge(stage, histogram, least, part))

    def marks():
        seconds = [future.inner.second for future in play.futures[-6:] if future]
        sleeps = [second.sleep for second in seconds if isinstance(second, Delayed)]
        deadlines = [sleep.deadline for sleep in sleeps if sleep]
        if deadlines and rng.random() < 0.9:
            return deadlines
        return [periods.made + (periods.present + later) * periods.length for later in (1, 2)]

    return Hedging(rng, play, clones=False, others=True, marks=marks).steps(how_many(rng))


if __name__ == "__main__":
    for scripts in (select, delay, latency, hedge):
        write_hostile(sys.argv[1], "scripted_retry", scripts.__name__, scripts)
