"""ReadyCache and Balance over a hostile party."""

import sys

from spawn import Answered, Party
from stage import LAST_MOMENT, Hostile, Inner, Plan, Play, Stage, how_many, write_hostile

PASSES = 64
NO_ROOM = "error out of memory"


class Cache:
    """The ready endpoints, each under its key, and the pending ones, longest waiting first, each cancelled or not."""

    def __init__(self, stage):
        self.stage = stage
        self.ready = []
        self.pending = []
        # of each key its pending endpoint that isn't cancelled
        self.waits = {}

    def index(self, key):
        return next((index for index, (other, _) in enumerate(self.ready) if other == key), len(self.ready))

    def awaited(self, key):
        """The key's pending endpoint that isn't cancelled."""
        return self.waits.get(key)

    def await_one(self, key, service):
        self.waits[key] = [key, service, False]
        self.pending.append(self.waits[key])

    def cancel(self, key):
        entry = self.waits.pop(key, None)
        if entry:
            entry[2] = True
        return bool(entry)

    def push(self, key, service):
        """Whether there was room. If there wasn't, nothing is changed."""
        if not self.stage.has_room("a push that found no room"):
            return False
        self.cancel(key)
        self.await_one(key, service)
        return True

    def remove(self, index):
        """The last one takes its place."""
        removed = self.ready[index]
        self.ready[index] = self.ready[-1]
        self.ready.pop()
        return removed

    def evict(self, key):
        was_pending, index = self.cancel(key), self.index(key)
        if index == len(self.ready):
            return was_pending
        self.remove(index)[1].drop()
        return True

    def poll(self):
        for entry in list(self.pending):
            key, service, is_cancelled = entry
            if not is_cancelled and not self.stage.has_room("a poll that found no room for a ready endpoint: it is asked first at the next"):
                return NO_ROOM
            answer = "cancelled" if is_cancelled else service.poll()
            if answer == "pending":
                continue
            self.pending.remove(entry)
            if not is_cancelled:
                del self.waits[key]
            if answer == "ready":
                self.promote(key, service)
                continue
            service.drop()
            if answer != "cancelled":
                return failed(key, answer)
        return "pending" if self.pending else "ready"

    def promote(self, key, service):
        index = self.index(key)
        old = self.ready[index : index + 1]
        self.ready[index : index + 1] = [(key, service)]
        for _, service in old:
            service.drop()

    def check(self, index):
        if index >= len(self.ready):
            return "false"
        key, service = self.ready[index]
        answer = service.poll()
        if answer == "ready":
            return "true"
        self.remove(index)
        if answer == "pending":
            self.put_back(key, service)
            return "false"
        service.drop()
        return failed(key, answer)

    def put_back(self, key, service):
        """It waits as the last, unless a newer one of its key waits."""
        if self.awaited(key):
            service.drop()
        else:
            self.await_one(key, service)

    def call(self, index, request):
        key, service = self.ready[index]
        response = service.call(request)
        self.remove(index)
        self.put_back(key, service)
        return response

    def services(self):
        return [service for _, service in self.ready] + [entry[1] for entry in self.pending]


def failed(key, answer):
    return f"error Failed({key}, {answer.removeprefix('error ')})"


class Fleet(Party):
    """Endpoints with a plan each, which are often pending, and in half of the scripts often fail."""

    def __init__(self, rng, play, extras, weights):
        self.WEIGHTS = weights
        super().__init__(rng, play, [*extras, self.endpoint])
        self.plans = {name: Plan(play.stage) for name in "abcd"}

    def state(self):
        return self.rng.choice(["ready", "ready", "pending", "pending", f"error {self.rng.randrange(256)}" if self.breaks else "ready"])

    def endpoint(self):
        """One of them answers otherwise from now on."""
        name = self.rng.choice("abcd")
        plan = self.plans[name]
        if self.rng.random() < 0.7:
            plan.readiness = self.list_of(self.state)
            self.play.ask(f"{name} readiness {', '.join(plan.readiness)}")
        else:
            plan.replies = self.list_of(self.reply)
            self.play.ask(f"{name} replies {', '.join(plan.replies)}")

    def end(self, words, services):
        """Drops all. In which order isn't said of those that are pending, but how many there are of each name is."""
        self.play.script.ask(words, None, [".."])
        names = [service.name for service in services]
        for name in sorted(set(names)):
            self.play.ask(f"count {name} dropped", str(names.count(name)))
        return self.play.end()


def ready_cache(rng):
    stage = Stage()
    cache = Cache(stage)
    play = Play(stage, "ready_cache", None)
    keys = rng.choice([2, 4, 8, 16])
    request = lambda: rng.randrange(256)
    key = lambda: rng.randrange(keys)
    index = lambda: rng.randint(0, len(cache.ready))

    def made():
        name = rng.choice("abcd")
        return Inner(hostile.plans[name], name)

    def push():
        of, service, count = key(), made(), rng.choice([1] * 40 + [2, 3, 130])
        for _ in range(count):
            cache.push(of, Inner(service.plan, service.name))
        play.ask(f"push {of} {service.name}" + (f" {count}" if count > 1 else ""))

    def poll():
        play.ask("poll", cache.poll())

    def check():
        of = key()
        play.ask(f"check {of}", cache.check(cache.index(of)))

    def check_index():
        at = index()
        play.ask(f"check_index {at}", cache.check(at))

    def call_index():
        at, number = index(), request()
        answer = cache.check(at)
        if answer == "true":
            cache.call(at, number).drop()
        play.ask(f"call_index {at} {number}", answer)

    def push_and_call():
        of, service = key(), made()
        answer = cache.check(cache.index(of))
        if answer == "true":
            cache.push(of, service)
            cache.call(cache.index(of), of).drop()
        else:
            service.drop()
        play.ask(f"push_and_call {of} {service.name}", answer)

    def evict():
        of = key()
        play.ask(f"evict {of}", "true" if cache.evict(of) else "false")

    def find():
        of = key()
        at, waits = cache.index(of), ", pending" if cache.awaited(of) else ""
        play.ask(f"find {of}", (f"{of} at {at}" if at < len(cache.ready) else "not ready") + waits)

    def find_index():
        at = index()
        play.ask(f"find_index {at}", str(cache.ready[at][0]) if at < len(cache.ready) else "none")

    def replace():
        of, by_index, gone = key(), rng.random() < 0.5, made()
        at, name = index() if by_index else cache.index(of), gone.name
        is_there = at < len(cache.ready)
        if is_there:
            cache.ready[at], gone = (cache.ready[at][0], gone), cache.ready[at][1]
        gone.drop()
        play.ask(f"replace_index {at} {name}" if by_index else f"replace {of} {name}", None if is_there else "none")

    def look():
        ready, pending = len(cache.ready), len(cache.pending)
        of = "".join(f" {key}" for key, _ in cache.ready)
        play.ask("look", f"ready{of}, {ready} + {pending} = {ready + pending}" + ("" if ready + pending else ", empty"))

    extras = [push] * 9 + [poll] * 4 + [look] * 3 + [check, check_index, evict, find, find_index, replace] + [call_index, push_and_call] * 2
    hostile = Fleet(rng, play, extras, {"extra": 1})
    for _ in range(how_many(rng)):
        hostile.step()
    return hostile.end("drop cache", cache.services())


class Weighed(Inner):
    """Tells its load."""

    def __init__(self, plan, name, load):
        super().__init__(plan, name)
        self.load = load

    def weigh(self):
        self.plan.stage.note(f"{self.name} weighed")
        return self.load


class Discovery:
    """What is found next: an insert, a removal, an error, nothing yet, or nothing ever. Or one key comes and goes for ever."""

    def __init__(self, stage):
        self.stage = stage
        self.found = []
        self.is_closed = False
        self.turns = None

    def poll(self):
        if self.turns:
            find = self.turns[0]
            self.turns.reverse()
        elif self.found:
            find = self.found.pop(0)
        else:
            find = ("ended",) if self.is_closed else ("pending",)
        self.stage.note(" ".join(map(str, ("discovery", *find[:3]))))
        return find


class Balance:
    """Takes the changes, promotes, and chooses. An index is kept from a choice to its call."""

    def __init__(self, stage, discovery, words, compares):
        self.stage = stage
        self.discovery = discovery
        self.words = words
        self.compares = compares
        self.cache = Cache(stage)
        self.change = None
        self.kept = None
        self.is_over = False
        self.plans = None

    def poll(self):
        if error := self.pushed() or (None if self.is_over else self.changes()):
            return error
        while (answer := self.cache.poll()).startswith("error Failed"):
            pass
        return answer if answer == NO_ROOM else self.choose()

    def pushed(self):
        """Pushes an insert that found no room, and tells if there is none yet."""
        if self.change and not self.cache.push(*self.change):
            return NO_ROOM
        self.change = None
        return None

    def changes(self):
        """An error of the discovery or of memory, or none."""
        for _ in range(PASSES):
            match self.discovery.poll():
                case "inserted", key, name, load:
                    self.change = key, Weighed(self.plans[name], name, load)
                    if error := self.pushed():
                        return error
                case "removed", key:
                    self.cache.evict(key)
                case "error", error:
                    return f"error Discover({error}): load balancer discovery error: {error}"
                case (answer,):
                    self.is_over = answer == "ended"
                    return None
        return None

    def choose(self):
        while self.kept is None or self.cache.check(self.kept) != "true":
            self.kept = self.picked()
            if self.kept is None:
                return "pending"
        return "ready"

    def picked(self):
        ready = self.cache.ready
        if len(ready) < 2:
            return 0 if ready else None
        first, second = self.word() % (len(ready) - 1), self.word() % len(ready)
        if first == second:
            first = len(ready) - 1
        loads = [ready[index][1].weigh() for index in (first, second)]
        return first if self.compares and loads[0] <= loads[1] else second

    def word(self):
        word = self.words.pop(0) if self.words else 0
        self.stage.note(f"word {word}")
        return word

    def call(self, request):
        index, self.kept = self.kept, None
        return Answered(self.cache.call(index, request))

    def drop(self):
        self.stage.drops("discovery")
        for service in [*self.cache.services(), *([self.change[1]] if self.change else [])]:
            service.drop()


def balance(rng):
    stage = Stage()
    discovery, compares = Discovery(stage), rng.random() < 0.8
    words = [rng.choice([0, 1, 2, 3, LAST_MOMENT, rng.randint(0, LAST_MOMENT)]) for _ in range(rng.randrange(9))]
    service = Balance(stage, discovery, words, compares)
    play = Play(stage, " ".join(["balance" if compares else "balance_never", *map(str, words)]), service)
    key, name, load = (lambda: rng.randrange(6)), (lambda: rng.choice("abcd")), (lambda: rng.randrange(4))

    def insert():
        found = "inserted", key(), name(), load()
        discovery.found.append(found)
        play.ask("insert {} {} {}".format(*found[1:]))

    def insert_many():
        first, end = rng.choice([(0, 3), (2, 9), (10, 80), (5, 5)])
        of, weight = name(), load()
        discovery.found += [("inserted", key, of, weight) for key in range(first, end)]
        play.ask(f"insert {first}..{end} {of} {weight}")

    def remove():
        discovery.found.append(("removed", key()))
        play.ask(f"remove {discovery.found[-1][1]}")

    def fail():
        discovery.found.append(("error", key()))
        play.ask(f"fail {discovery.found[-1][1]}")

    def last():
        """Seldom there is no further change, or no end of them."""
        if rng.random() < 0.1:
            discovery.is_closed = True
            play.ask("close")
        elif rng.random() < 0.05:
            of, who = key(), name()
            discovery.turns = [("inserted", of, who, 0), ("removed", of)]
            play.ask(f"turns {of} {who}")

    def length():
        count = len(service.cache.services())
        play.ask("len", str(count) if count else "0, empty")

    extras = [insert] * 8 + [remove] * 5 + [insert_many, fail, last, length, length]
    hostile = Fleet(rng, play, extras, {**Hostile.WEIGHTS, "extra": 50, "turn": 0})
    hostile.extras.extend([hostile.endpoint] * 5)
    service.plans = hostile.plans
    for _ in range(how_many(rng)):
        hostile.step()
    play.handles = [None]
    return hostile.end("drop a", service.cache.services())


if __name__ == "__main__":
    for scripts in (ready_cache, balance):
        write_hostile(sys.argv[1], "scripted_pool", scripts.__name__, scripts)
