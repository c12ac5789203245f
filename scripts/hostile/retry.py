"""Retry, with any policy, with a budget and with a backoff, TpsBudget and ExponentialBackoff over a hostile party."""

import sys
from collections import Counter

from stage import LAST_MOMENT, Hostile, Inner, Part, Play, Stage, how_many, within, write_hostile

PASSES = 64
SECOND = 10**9


class Retry:
    """A policy and a service, of which each call gets clones."""

    def __init__(self, policy, inner):
        self.policy = policy
        self.inner = inner

    def poll(self):
        return within(self.inner.poll())

    def call(self, request):
        kept = self.policy.copied(request)
        response = self.inner.call(request)
        copy = self.clone()
        if copy is None:
            response.drop()
            return Refused()
        return Attempts(copy, kept, response)

    def clone(self):
        policy = self.policy.clone()
        inner = policy and self.inner.clone()
        if policy and not inner:
            policy.drop()
        return inner and Retry(policy, inner)

    def drop(self):
        self.policy.drop()
        self.inner.drop()


class Refused:
    """A response for which there was no clone."""

    def poll(self):
        return "error out of memory"

    def drop(self):
        pass


class Attempts:
    """A response: an attempt, or a wait, or neither while the service is to be ready for the next attempt."""

    def __init__(self, retry, kept, response):
        self.retry = retry
        self.kept = kept
        self.response = response
        self.wait = None

    def poll(self):
        for _ in range(PASSES):
            answer = self.step()
            if answer:
                return answer
        return "pending"

    def step(self):
        """One pass, which may answer."""
        if self.response:
            outcome = self.response.poll()
            return outcome if outcome == "pending" else self.decide(outcome)
        if self.wait:
            if self.wait.poll() == "pending":
                return "pending"
            self.wait.drop()
            self.wait = None
            return None
        answer = self.retry.inner.poll()
        if answer != "ready":
            return within(answer)
        request, self.kept = self.kept, self.retry.policy.copied(self.kept)
        self.response = self.retry.inner.call(request)
        return None

    def decide(self, outcome):
        if self.kept is None:
            return within(outcome)
        self.wait, self.kept, outcome = self.retry.policy.asked(self.kept, outcome)
        if self.wait is None:
            return within(outcome)
        self.response.drop()
        self.response = None
        return None

    def drop(self):
        for part in (self.retry, self.response, self.wait):
            if part:
                part.drop()


class Rule(Part):
    """Says the next of the words that its clones share, and then that the result is the answer."""

    def __init__(self, plan, name, words, copies):
        super().__init__(plan, name)
        self.words = words
        self.copies = copies

    def clone(self):
        copy = self.plan.clone(self.name)
        return copy and Rule(self.plan, copy, self.words, self.copies)

    def copied(self, request):
        self.plan.stage.note(f"{self.name} {'copied' if self.copies else 'left'} {request}")
        return request if self.copies else None

    def asked(self, request, outcome):
        word, value = outcome.split()
        self.plan.stage.note(f"{self.name} asked {'Ok' if word == 'ok' else 'Err'}({value})")
        word, *values = self.words[0].split() if self.words else ["done"]
        if word != "always":
            del self.words[:1]
        match [word, *values]:
            case ["done"]:
                return None, request, outcome
            case ["answer", word, value]:
                return None, request, f"{'ok' if word == 'ok' else 'error'} {value}"
            case ["change", other, *values]:
                request = int(other)
        return Wait(self.plan.stage, int(values[0]) if values else 0), request, outcome


class Wait:
    """Pending so many times."""

    def __init__(self, stage, polls):
        self.stage = stage
        self.polls = polls

    def poll(self):
        answer = "pending" if self.polls else "ready"
        self.stage.note(f"w {answer}")
        self.polls -= 1
        return answer

    def drop(self):
        self.stage.drops("w")


def words_of(rng):
    """What a policy says next. It seldom retries for ever."""

    def word():
        polls, request = rng.randrange(3), rng.randrange(256)
        answer = f"answer {rng.choice(['ok', 'err'])} {request}"
        return rng.choice(["done", "again", f"again {polls}", f"change {request}", f"change {request} {polls}", answer])

    return [word() for _ in range(rng.randrange(1, 4))] + (["always"] if rng.random() < 0.1 else [])


def retry(rng):
    stage = Stage()
    copies = rng.random() < 0.9
    rule = Rule(stage.services, "r", [], copies)
    play = Play(stage, "retry" if copies else "retry uncopied", Retry(rule, Inner(stage.services, "s")))

    def policy():
        rule.words[:] = words_of(rng)
        play.ask(f"policy {', '.join(rule.words)}")

    return Hostile(rng, play, extras=[policy]).steps(how_many(rng))


class Budget:
    """The sum of the amounts of each generation. An amount counts in its own and in the ten after it. Its latch may note its steps."""

    def __init__(self, stage, ttl, least, retries, requests, is_noted=False):
        self.is_noted = is_noted
        self.window = ttl // 10
        self.gain, self.price = 0, 1
        if 0 < retries <= requests:
            self.gain, self.price = 1, requests // retries
        elif retries > requests:
            self.gain, self.price = 1000, 1000 * requests // retries
        self.reserve = least * (ttl // SECOND) * self.price
        self.stage = stage
        self.made = stage.read()
        self.present = 0
        self.sums = Counter()

    def advance(self, step):
        """The generation never goes back."""
        moment = self.stage.read()
        if self.is_noted:
            self.stage.note(f"latch stepped {step}({moment})")
        self.present = max(self.present, (moment - self.made) // self.window)

    def deposit(self):
        self.advance("Deposit")
        self.sums[self.present] += self.gain

    def withdraw(self):
        self.advance("Withdraw")
        balance = self.reserve + sum(self.sums[self.present - back] for back in range(11))
        if balance >= self.price:
            self.sums[self.present] -= self.price
        return balance >= self.price

    def marks(self):
        """The ends of the next windows."""
        return [self.made + (self.present + later) * self.window for later in (1, 2, 10, 11, 12)]

    def drop(self):
        if self.is_noted:
            self.stage.drops("latch")
        self.stage.drops("clock")


def terms(rng):
    ttl = rng.choice([SECOND, 10 * SECOND, 37 * SECOND + 5, 60 * SECOND, rng.randint(SECOND, 60 * SECOND)])
    least = rng.choice([0, 0, 0, 1, 2, rng.randrange(2147483647)])
    return ttl, least, *rng.choice([(1, 1), (1, 5), (0, 1), (2, 1), (1000, 1), (3, 2), (2, 5), (1, 4294967295), (4294967295, 4294968)])


class Alone(Hostile):
    """Asks only words of the program's own, before each of which the clock may turn."""

    WEIGHTS = {"extra": 1}

    def extra(self):
        self.clock()
        super().extra()


def first_of(name, *numbers):
    return " ".join([name, *map(str, numbers)])


def budget(rng):
    stage = Stage()
    stage.moment = rng.choice([0, 7, 100 * SECOND, rng.randint(0, LAST_MOMENT)])
    is_usual = rng.random() < 0.1
    numbers = (10 * SECOND, 10, 1, 5) if is_usual else terms(rng)
    budget = Budget(stage, *numbers, is_noted=not is_usual)
    first = "usual_budget" if is_usual else first_of("budget", *numbers)
    play = Play(stage, f"{first}; at {stage.moment}", None, ended=[budget])

    def deposit():
        budget.deposit()
        play.ask("deposit")

    def withdraw():
        play.ask("withdraw", "allowed" if budget.withdraw() else "refused")

    def spend():
        spent = 0
        while spent < 1400 and budget.withdraw():
            spent += 1
        notes = stage.notes
        stage.notes = [".."]
        play.ask("spend", str(spent))
        for note in sorted(set(notes)):
            play.ask(f"count {note}", str(notes.count(note)))

    extras = [deposit] * 10 + [withdraw] * 10 + [spend]
    return Alone(rng, play, marks=budget.marks, extras=extras).steps(how_many(rng))


class Paying:
    """Retries an error at once where the budget pays, and deposits for another answer. Clones share the budget."""

    def __init__(self, budget):
        self.budget = budget

    def copied(self, request):
        return request

    def asked(self, request, outcome):
        if outcome.startswith("ok "):
            self.budget.deposit()
            return None, request, outcome
        return Now() if self.budget.withdraw() else None, request, outcome

    def clone(self):
        self.budget.stage.note("clock shared")
        return Paying(self.budget)

    def drop(self):
        self.budget.drop()


class Now:
    """No wait."""

    def poll(self):
        return "ready"

    def drop(self):
        pass


class Failing(Hostile):
    """Many calls fail, and are polled often."""

    WEIGHTS = {**Hostile.WEIGHTS, "future": 50, "drop_future": 3}

    def __init__(self, rng, play, marks):
        super().__init__(rng, play, marks=marks)
        self.play.stage.services.replies = ["fail"]
        self.play.ask("replies fail")

    def reply(self):
        return self.rng.choice(["fail", f"fail {self.rng.randrange(1, 4)}", super().reply()])


def retry_budget(rng):
    stage = Stage()
    numbers = terms(rng)
    budget = Budget(stage, *numbers)
    play = Play(stage, first_of("retry_budget", *numbers), Retry(Paying(budget), Inner(stage.services, "s")))
    return Failing(rng, play, budget.marks).steps(how_many(rng))


class Sleep:
    """Over from its deadline on, which no moment may reach."""

    def __init__(self, stage, duration):
        self.stage = stage
        stage.note("clock shared")
        self.deadline = stage.read() + duration

    def poll(self):
        return "over" if self.stage.read() >= self.deadline else "pending"

    def drop(self):
        self.stage.drops("clock")


class Backoff:
    """A maker, or a backoff with how many waits it gave."""

    def __init__(self, stage, least, most, part, word, count=0):
        self.stage = stage
        self.least = least
        self.most = most
        self.part = part
        self.word = word
        self.count = count

    def wait(self):
        base = min(self.least * min(2**self.count, 2**32 - 1), self.most)
        self.count += 1
        return Sleep(self.stage, base + self.jitter(base))

    def jitter(self, base):
        """A part of the wait by one word, and no further than the greatest wait."""
        numerator, divisor = self.part
        if numerator == 0:
            return 0
        self.stage.note("word drawn")
        share = base * (self.word >> 11) // 2**53
        self.word = (self.word + 1) % 2**64
        return min(share * numerator // divisor, self.most - base)

    def clone(self):
        self.stage.note("clock shared")
        return Backoff(self.stage, self.least, self.most, self.part, self.word, self.count)

    def drop(self):
        self.stage.drops("clock")


def backoff_of(rng, stage, name):
    """A maker, and the first line that makes it."""
    most = rng.choice([LAST_MOMENT, 1000, 100, rng.randint(1, LAST_MOMENT)])
    least = min(rng.choice([0, 1, 10, 100, most, rng.randint(0, most)]), most)
    part = rng.choice([(0, 1), (1, 1), (1, 2), (99, 100), (100, 1), (1, 4294967295), (4294967295, 42949673)])
    word = rng.choice([0, 1, LAST_MOMENT, 2**63, rng.randint(0, LAST_MOMENT)])
    return Backoff(stage, least, most, part, word), first_of(name, least, most, *part, word)


def backoff(rng):
    stage = Stage()
    maker, first = backoff_of(rng, stage, "backoff")
    play = Play(stage, first, None, ended=[maker])
    kept, waits = [None], play.futures

    def keep(made, *gone):
        for old in (*gone, kept[0]):
            if old:
                old.drop()
        kept[0] = made

    def make():
        keep(maker.clone())
        play.ask("make")

    def make_of_a_clone():
        copy = maker.clone()
        keep(copy.clone(), copy)
        play.ask("make of a clone")

    def clone():
        if kept[0]:
            keep(kept[0].clone())
            play.ask("clone")

    def wait():
        if kept[0]:
            waits.append(kept[0].wait())
        play.ask("wait", f"wait {len(waits) - 1}" if kept[0] else "skipped")

    def skip():
        if kept[0]:
            count = rng.choice([1, 2, 30])
            for _ in range(count):
                kept[0].wait().drop()
            play.ask(f"skip {count}")

    def place():
        return rng.randint(max(len(waits) - 6, 0), len(waits))

    def at(place):
        return waits[place] if place < len(waits) else None

    def future():
        number = place()
        answer = at(number).poll() if at(number) else "skipped"
        if answer == "over":
            at(number).drop()
            waits[number] = None
        play.ask(f"fut {number}", answer)

    def drop():
        number = place()
        if at(number):
            at(number).drop()
            waits[number] = None
        play.ask(f"drop {number}")

    make()
    extras = [make, make_of_a_clone, clone, skip, drop, drop] + [wait] * 8 + [future] * 14
    marks = lambda: [sleep.deadline for sleep in waits[-6:] if sleep]
    hostile = Alone(rng, play, marks=marks, extras=extras)
    for _ in range(how_many(rng)):
        hostile.step()
    play.ended = [kept[0], maker]
    return play.end()


class Patient:
    """Retries each error after the next wait."""

    def __init__(self, backoff):
        self.backoff = backoff

    def copied(self, request):
        return request

    def asked(self, request, outcome):
        return None if outcome.startswith("ok ") else self.backoff.wait(), request, outcome

    def clone(self):
        return Patient(self.backoff.clone())

    def drop(self):
        self.backoff.drop()


def retry_backoff(rng):
    stage = Stage()
    maker, first = backoff_of(rng, stage, "retry_backoff")
    policy = Patient(maker.clone())
    maker.drop()
    play = Play(stage, first, Retry(policy, Inner(stage.services, "s")))
    waits = lambda: [future.wait for future in play.futures[-6:] if isinstance(future, Attempts)]
    marks = lambda: [wait.deadline for wait in waits() if wait]
    return Failing(rng, play, marks).steps(how_many(rng))


if __name__ == "__main__":
    for scripts in (retry, retry_budget, retry_backoff, budget, backoff):
        write_hostile(sys.argv[1], "scripted_retry", scripts.__name__, scripts)
