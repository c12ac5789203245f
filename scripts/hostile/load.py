"""PendingRequests over a hostile party."""

import sys

from stage import Hostile, Inner, Play, Shares, Stage, how_many, write_hostile


class PendingRequests(Shares):
    """A number of requests that count, which their shares of a latch end."""

    def __init__(self, stage):
        super().__init__(stage, 255)
        self.inner = Inner(stage.services, "s")
        self.count = 0

    def poll(self):
        return self.inner.poll()

    def call(self, request):
        counts = self.take()
        return Counted(self, self.inner.call(request), counts)

    def take(self):
        """Whether one more counts."""
        if not self.share():
            return False
        self.stage.note("latch stepped Take")
        self.count += 1
        return True

    def give(self):
        self.stage.note("latch stepped Give")
        self.stage.drops("latch")
        self.count -= 1

    def load(self):
        self.stage.note("latch stepped Load")
        return f"Count({self.count})"

    def drop(self):
        self.inner.drop()
        self.stage.drops("latch")


class Counted:
    """A response that counts until it answers well or is dropped."""

    def __init__(self, requests, response, counts):
        self.requests = requests
        self.response = response
        self.counts = counts

    def poll(self):
        answer = self.response.poll()
        if answer.startswith("ok "):
            self.give()
        return answer

    def give(self):
        if self.counts:
            self.requests.give()
        self.counts = False

    def drop(self):
        self.response.drop()
        self.give()


def pending_requests(rng):
    stage = Stage()
    service = PendingRequests(stage)
    play = Play(stage, "pending_requests", service)

    def load():
        play.ask("load", service.load())

    def shares():
        service.shares = rng.choice([0, 1, 2, 5, 255, 255])
        play.ask(f"shares {service.shares}")

    return Hostile(rng, play, clones=False, extras=[load, load, load, shares]).steps(how_many(rng))


if __name__ == "__main__":
    write_hostile(sys.argv[1], "scripted_ware", "pending_requests", pending_requests)
