"""Scripts that were written by hand, played by the plain machines, which may be refused room for once."""

import functools
import re

from balance import Balance, Cache, Discovery, Weighed
from call_all import Calls, Ordered, Unordered
from hedge import MILLISECOND, Hedge, Histogram, Periods
from retry import Refused
from stage import HANDLES, Inner, Part, Plan, Play, Stage, within


class Row:
    """A machine that plays scripts by their lines. `lines` has of each line what was asked, the answer, and what was noted."""

    def __init__(self, asked, refused=None):
        self.stage = Stage()
        self.stage.refused = refused
        self.lines, self.ends, self.last = [], [], ""
        parts, *changes = asked[0].split(";")
        for change in changes:
            self.turn(change.strip())
        self.told(asked[0], self.make(parts.split()))
        for line in asked[1:]:
            self.told(line, self.answer(line))

    @classmethod
    @functools.lru_cache(4)
    def whole(cls, asked):
        """The play with ample memory."""
        return cls(asked)

    @classmethod
    def refused(cls, asked, place, may_follow):
        """The lines of each play that is refused room once, if the line at this place is the first that may show it. After a refusal in this line itself only
        such notes come as may follow so many others."""
        whole = cls.whole(asked)
        before, here = ([0] + whole.ends)[place], whole.ends[place]
        for number in [*(it for it in range(before, here) if may_follow(whole.stage.rooms[it][1])), *range(before)]:
            yield cls.refused_at(asked, number)

    @classmethod
    @functools.lru_cache(1024)
    def refused_at(cls, asked, number):
        """The lines of a play that is refused the room with this number."""
        return cls(asked, number).lines

    def told(self, line, answer):
        if self.stage.notes:
            self.last = "".join(f"{note};" for note in self.stage.notes)
        self.lines.append((line, answer or "", self.settled(line, "; ".join(self.stage.told()))))
        self.ends.append(len(self.stage.rooms))

    @staticmethod
    def settled(_line, notes):
        return notes

    def answer(self, line):
        word, _, rest = line.partition(" ")
        if word == "count":
            return str(self.last.count(rest))
        if word == "answer":
            return self.late(*rest.split())
        if self.turn(line):
            return None
        return self.asked(word, rest)

    def late(self, call, word, value):
        return self.stage.services.answer(int(call), f"{'ok' if word == 'ok' else 'error'} {value}")

    def turn(self, line):
        """Whether the line changes what the parts answer, or the moment."""
        side, words = (self.stage.others, line.removeprefix("others ")) if line.startswith("others ") else (self.stage.services, line)
        if words.startswith("at "):
            self.stage.moment = int(words.removeprefix("at "))
        elif words.startswith("clones "):
            side.clones = int(words.removeprefix("clones "))
        else:
            return changed(side, words)
        return True


def changed(plan, words):
    """Whether the words say what the plan's services or responses answer from now on."""
    word, _, rest = words.partition(" ")
    if word not in ("readiness", "replies"):
        return False
    setattr(plan, word, [it.strip() for it in rest.split(",")])
    return True


class OfCalls(Row):
    """A stream of calls."""

    def make(self, words):
        queue = Unordered() if words[0] == "call_all_unordered" else Ordered()
        self.calls = Calls(self.stage, queue, int(words[1]), "closed" in words)

    def asked(self, word, rest):
        if word == "next":
            return self.calls.next()
        if word == "send":
            self.calls.sent = int(rest)
        elif word == "close":
            self.calls.is_closed = True
        else:
            self.calls.drop()
        return None


class Handles(Play):
    """Handles and futures, of which the row asks. What is noted is left to the row."""

    def __init__(self, stage, service):
        notes, stage.notes = stage.notes, []
        super().__init__(stage, "", service)
        stage.notes, self.answer = notes, None

    def ask(self, _asked, answer=None):
        self.answer = answer

    def end(self):
        for part in [*self.handles, *self.futures]:
            if part:
                part.drop()


class OfHandles(Row):
    """A service with its handles and futures."""

    def play(self, service):
        self.handles = Handles(self.stage, service)

    def asked(self, word, rest):
        self.handles.answer = None
        numbers = [int(it) for it in rest.split() if it.isdigit()]
        place = HANDLES.index(rest[0]) if rest[:1].isalpha() else 0
        if word == "poll":
            self.handles.poll(place)
        elif word == "call":
            self.handles.call(place, numbers[0])
        elif word == "clone":
            self.handles.clone(place)
        elif word == "fut":
            self.handles.future(numbers[0])
        elif word == "drop":
            if rest.isdigit():
                self.handles.drop_future(numbers[0])
            else:
                self.handles.drop_handle(place)
        else:
            self.handles.end()
        return self.handles.answer


class OfHedge(OfHandles):
    """A hedge, whose histogram leaves points out."""

    def make(self, words):
        numbers = [int(it) for it in words[1:] if it.isdigit()]
        if words[0] == "hedge":
            part, periods, seeds = (9, 10), Periods(60_000 * MILLISECOND, 0), [1] * 8 + [10] * 2
            seeds = [] if "unseeded" in words else seeds
        else:
            part, seeds = (numbers[1], numbers[2]), [1, 3] if "seeded" in words else []
            periods = Periods(numbers[3], self.stage.read())
        histogram = Histogram(self.stage, periods, words[0] == "hedge")
        for millis in seeds:
            histogram.seed(millis)
        self.play(Hedge(self.stage, histogram, numbers[0], part))


class OfFleet(OfHandles):
    """Endpoints `a` to `d`. In which order pending ones are dropped isn't said, so at the end all drops are told in the order of the names."""

    @staticmethod
    def settled(line, notes):
        if line not in ("end", "drop cache", "drop a") and not line.startswith("fut "):
            return notes
        return re.sub(r"[^;]+ dropped", lambda match: sorted_drops(match[0]), notes)

    def asked(self, word, rest):
        if word in "abcd" and changed(self.plans[word], rest):
            return None
        return self.fleet(word, rest)


def sorted_drops(note):
    names = []
    for name in note.removesuffix(" dropped").split(", "):
        name, _, count = name.strip().partition(" x")
        names += [name] * int(count or 1)
    return f" {', '.join(sorted(names))} dropped"


class Found:
    """What a script has the discovery find."""

    def __init__(self, discovery):
        self.discovery = discovery

    def change(self, word, rest):
        """Whether the words are of the discovery."""
        words = rest.split()
        if word == "insert":
            first, _, end = words[0].partition("..")
            for key in range(int(first), int(end) if end else int(first) + 1):
                self.discovery.found.append(("inserted", key, words[1], int(words[2])))
        elif word == "remove":
            self.discovery.found.append(("removed", int(rest)))
        elif word == "fail":
            self.discovery.found.append(("error", int(rest)))
        elif word == "close":
            self.discovery.is_closed = True
        elif word == "turns":
            self.discovery.turns = [("inserted", int(words[0]), words[1], 0), ("removed", int(words[0]))]
        else:
            return False
        return True


class Plans(dict):
    """The plan of each endpoint."""

    def __init__(self, stage):
        super().__init__()
        self.stage = stage

    def __missing__(self, name):
        self[name] = Plan(self.stage)
        return self[name]


class OfBalance(OfFleet):
    """A balancer over a discovery."""

    def make(self, words):
        self.plans = Plans(self.stage)
        discovery = Discovery(self.stage)
        self.found = Found(discovery)
        self.balance = Balance(self.stage, discovery, [int(it) for it in words[1:]], words[0] == "balance")
        self.balance.plans = self.plans
        self.play(self.balance)

    def fleet(self, word, rest):
        if self.found.change(word, rest):
            return None
        if word == "len":
            count = len(self.balance.cache.services())
            return str(count) if count else "0, empty"
        return super(OfFleet, self).asked(word, rest)


class Words(Part):
    """Words to draw by. A clone has a list of its own."""

    def __init__(self, plan, name, words):
        super().__init__(plan, name)
        self.words = words

    def clone(self):
        copy = self.plan.clone(self.name)
        return copy and Words(self.plan, copy, list(self.words))


class MakeBalance:
    """Makes balancers of a maker and of clones of its words."""

    def __init__(self, row, inner, words):
        self.row, self.inner, self.words = row, inner, words

    def poll(self):
        return within(self.inner.poll())

    def call(self, target):
        words = self.words.clone()
        if words is None:
            return Refused()
        self.row.stage.note(f"m called {target}")
        return Making(self.row, target, words)

    def clone(self):
        inner = self.inner.clone()
        words = inner and self.words.clone()
        if inner and not words:
            inner.drop()
        return words and MakeBalance(self.row, inner, words)

    def drop(self):
        self.inner.drop()


class Making:
    """A discovery comes at the second poll, if the target is even. Its balancer is polled once and dropped, and how many endpoints it has is told."""

    def __init__(self, row, target, words):
        self.row, self.target, self.words = row, target, words
        self.was_polled = False

    def poll(self):
        stage = self.row.stage
        if not self.was_polled:
            self.was_polled = True
            stage.note("f pending")
            return "pending"
        stage.note("f ready")
        if self.target % 2:
            return f"error Inner({self.target})"
        balance = Balance(stage, self.row.discovery, self.words.words, True)
        balance.plans = self.row.plans
        balance.poll()
        count = len(balance.cache.services())
        balance.drop()
        return f"ok {count}"

    def drop(self):
        self.row.stage.drops("f")


class OfMakeBalance(OfFleet):
    """A maker of balancers."""

    def make(self, words):
        self.plans = Plans(self.stage)
        self.discovery = Discovery(self.stage)
        self.found = Found(self.discovery)
        words, is_layered = Words(self.stage.others, "w", [int(it) for it in words[1:] if it.isdigit()]), "layer" in words
        for _ in range(2 * is_layered):
            words = words.clone()
        self.play(MakeBalance(self, Inner(self.stage.services, "m"), words))

    def fleet(self, word, rest):
        if self.found.change(word, rest):
            return None
        return super(OfFleet, self).asked(word, rest)


class OfCache(OfFleet):
    """A cache of endpoints."""

    def make(self, words):
        self.plans = Plans(self.stage)
        self.cache = Cache(self.stage)

    def made(self, name):
        return Weighed(self.plans[name], name, 0)

    def push(self, key, name):
        service = self.made(name)
        if self.cache.push(key, service):
            return None
        service.drop()
        return "out of memory"

    def fleet(self, word, rest):
        words, cache = rest.split(), self.cache
        if word == "push":
            counts = range(int(words[2]) if len(words) > 2 else 1)
            return next((answer for _ in counts if (answer := self.push(int(words[0]), words[1]))), None)
        if word == "poll":
            return cache.poll()
        if word == "check":
            return cache.check(cache.index(int(rest)))
        if word == "check_index":
            return cache.check(int(rest))
        if word == "call_index":
            return self.call(int(words[0]), int(words[1]))
        if word == "push_and_call":
            return self.push_and_call(int(words[0]), words[1])
        if word == "evict":
            return "true" if cache.evict(int(rest)) else "false"
        if word in ("find", "find_index"):
            return self.find(word, int(rest))
        if word in ("replace", "replace_index"):
            return self.replace(int(words[0]) if word == "replace_index" else cache.index(int(words[0])), words[1])
        if word == "look":
            ready, pending = len(cache.ready), len(cache.pending)
            of = "".join(f" {key}" for key, _ in cache.ready)
            return f"ready{of}, {ready} + {pending} = {ready + pending}" + ("" if ready + pending else ", empty")
        for service in cache.services():
            service.drop()
        self.cache = Cache(self.stage)
        return None

    def call(self, index, request):
        answer = self.cache.check(index)
        if answer == "true":
            self.cache.call(index, request).drop()
        return answer

    def push_and_call(self, key, name):
        answer = self.cache.check(self.cache.index(key))
        if answer != "true":
            self.stage.drops(name)
            return answer
        pushed = self.push(key, name)
        self.cache.call(self.cache.index(key), key).drop()
        return pushed or answer

    def find(self, word, key):
        ready = self.cache.ready
        if word == "find_index":
            return str(ready[key][0]) if key < len(ready) else "none"
        index, waits = self.cache.index(key), ", pending" if self.cache.awaited(key) else ""
        return (f"{key} at {index}" if index < len(ready) else "not ready") + waits

    def replace(self, index, name):
        ready, gone = self.cache.ready, self.made(name)
        is_there = index < len(ready)
        if is_there:
            ready[index], gone = (ready[index][0], gone), ready[index][1]
        gone.drop()
        return None if is_there else "none"


# The rows that have a machine here, by the first word.
MACHINES = {
    "call_all": OfCalls,
    "call_all_unordered": OfCalls,
    "hedge": OfHedge,
    "locked_hedge": OfHedge,
    "balance": OfBalance,
    "balance_never": OfBalance,
    "make_balance": OfMakeBalance,
    "ready_cache": OfCache,
}


def machine_of(first):
    """The row's machine, if it has one."""
    return MACHINES.get(first.split(";")[0].split()[0])
