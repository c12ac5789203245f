"""Both streams of calls over a hostile party."""

import sys

from script import Script
from stage import Hostile, Inner, Stage, how_many, within, write_hostile

PASSES = 64


class Ordered:
    """Calls in their order, each a future and its answer, if that is kept."""

    def __init__(self):
        self.calls = []

    def ask(self):
        """The answer of the first call. Where that is pending each other one without an answer is polled."""
        if not self.calls:
            return None
        future, answer = self.calls[0]
        answer = answer or polled(future)
        if answer == "pending":
            self.calls[1:] = [(future, answer or kept(polled(future))) for future, answer in self.calls[1:]]
            return None
        self.calls.pop(0)
        return answer

    def push(self, future):
        self.calls.append((future, None))

    def drop(self):
        for future, answer in self.calls:
            if not answer:
                future.drop()


class Unordered:
    """Calls in their order, polled up to the first that answers."""

    def __init__(self):
        self.calls = []

    def ask(self):
        for place, future in enumerate(self.calls):
            answer = polled(future)
            if answer != "pending":
                self.calls.pop(place)
                return answer
        return None

    def push(self, future):
        self.calls.append(future)

    def drop(self):
        for future in self.calls:
            future.drop()


def polled(future):
    """What the future answers. It is dropped as it does."""
    answer = future.poll()
    if answer != "pending":
        future.drop()
    return answer


def kept(answer):
    return None if answer == "pending" else answer


class Calls:
    """A stream of calls: its requests are the numbers that were sent."""

    def __init__(self, stage, queue, sent, is_closed):
        self.stage = stage
        self.service = Inner(stage.services, "s")
        self.queue = queue
        self.sent = sent
        self.is_closed = is_closed
        self.given = 0
        self.kept = None
        self.has_ended = False
        self.is_there = True

    def next(self):
        if not self.is_there:
            return "skipped"
        for _ in range(PASSES):
            if answer := self.go_on():
                return answer
        return "pending"

    def go_on(self):
        """One pass: an answer, or none."""
        if answer := self.queue.ask():
            return within(answer)
        if self.has_ended:
            if self.queue.calls:
                return "pending"
            self.drop()
            return "none"
        if self.kept is None and not self.take():
            return None if self.has_ended else "pending"
        if not self.stage.has_room("a call that found no room: its request waits"):
            return "error out of memory"
        answer = self.service.poll()
        if answer == "ready":
            self.queue.push(self.service.call(self.kept))
            self.kept = None
            return None
        self.has_ended = answer != "pending"
        return within(answer)

    def take(self):
        """The next request is kept, if there is one."""
        if self.given < self.sent:
            self.kept = self.given
            self.given += 1
            self.stage.note(f"requests gave {self.kept}")
            return True
        self.has_ended = self.is_closed
        self.stage.note("requests ended" if self.is_closed else "requests pending")
        return False

    def drop(self):
        if self.is_there:
            self.service.drop()
            self.stage.drops("requests")
            self.queue.drop()
        self.is_there = False


class Stream:
    """What a hostile party asks of a stream in place of handles and futures."""

    def __init__(self, stage, first, calls):
        self.stage = stage
        self.calls = calls
        self.script = Script(first)

    def ask(self, asked, answer=None):
        self.script.ask(asked, answer, self.stage.told())

    def next(self):
        self.ask("next", self.calls.next())

    def send(self, sent):
        self.calls.sent = sent
        self.ask(f"send {sent}")

    def close(self):
        self.calls.is_closed = True
        self.ask("close")

    def end(self):
        self.calls.drop()
        return self.script.end(self.stage.told())


class HostileStream(Hostile):
    WEIGHTS = {"next": 60, "send": 14, "close": 1, "turn": 25}

    def next(self):
        self.play.next()

    def send(self):
        more = self.rng.choice([0, 1, 1, 2, 3, 5, 70 if self.rng.random() < 0.05 else 1])
        self.play.send(min(255, self.play.calls.sent + more))

    def close(self):
        self.play.close()

    # An error of readiness ends the requests, so there are few.
    def state(self):
        return self.rng.choice(["ready"] * 12 + ["pending"] * 5 + [f"error {self.rng.randrange(256)}"])


def scripts(word, queue):
    def script(rng):
        stage = Stage()
        sent, is_closed = rng.choice([0, 1, 3, 3, 65 if rng.random() < 0.2 else 2]), rng.random() < 0.1
        calls = Calls(stage, queue(), sent, is_closed)
        play = Stream(stage, f"{word} {sent}{' closed' * is_closed}", calls)
        hostile = HostileStream(rng, play, clones=False)
        for _ in range(how_many(rng, 30)):
            hostile.step()
            if not calls.is_there and rng.random() < 0.5:
                break
        return play.end()

    return script


if __name__ == "__main__":
    for name, queue in [("call_all", Ordered), ("call_all_unordered", Unordered)]:
        write_hostile(sys.argv[1], "scripted_ware", name, scripts(name, queue))
