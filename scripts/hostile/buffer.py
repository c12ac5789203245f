"""Buffer and its worker over a hostile party."""

import sys

from spawn import Party
from stage import Inner, Play, Stage, how_many, times, within, write_hostile

PASSES = 64
CLOSED = "error buffer's worker closed unexpectedly"


class Keys:
    """The key that was given back last is the next."""

    def __init__(self):
        self.count = 0
        self.unused = []

    def take(self):
        self.count += not self.unused
        return self.unused.pop() if self.unused else self.count - 1

    def give(self, key):
        self.unused.append(key)


class Places:
    """Tickets in the order of asking, each held or waiting under a key. The first ones, as many as there are places, have one."""

    HELD = "held"

    def __init__(self, most):
        self.most = most
        self.tickets = []
        self.keys = Keys()

    def join(self):
        """The key to wait under, or none with a place."""
        key = self.keys.take() if len(self.tickets) >= self.most else None
        self.tickets.append(self.HELD if key is None else key)
        return key

    def look(self, key):
        """The same of this key."""
        at = self.tickets.index(key)
        if at >= self.most:
            return key
        self.tickets[at] = self.HELD
        self.keys.give(key)
        return None

    def leave(self, ticket=HELD):
        self.tickets.remove(ticket)
        if ticket != self.HELD:
            self.keys.give(ticket)


class Message:
    """Queued as long as it has its request. Its outcome is open, failed, cancelled, lost, or the response."""

    def __init__(self, id, request):
        self.id = id
        self.request = request
        self.outcome = "open"


class Mail:
    """All messages in the order of sending, beside their places."""

    def __init__(self, stage, most):
        self.stage = stage
        self.places = Places(most)
        self.ids = Keys()
        self.messages = []
        self.reserved = 0
        self.stored = None
        self.is_closed = False
        self.buffers = 1
        self.has_worker = True
        self.shares = 255

    def share(self):
        """Whether there is a further share of the latch."""
        if self.shares == 0:
            self.stage.note("no share")
            return False
        if self.shares < 255:
            self.shares -= 1
        return True

    def told(self):
        """What closed mail tells."""
        if self.stored is None:
            return CLOSED
        return f"error Service(ServiceError {{ error: {self.stored} }}): buffered service failed: {self.stored}"

    def reserve(self, key):
        """The key to wait under, or none with a place."""
        key = self.places.join() if key is None else self.places.look(key)
        self.reserved += key is None
        return key

    def unreserve(self):
        self.reserved -= 1
        self.places.leave()

    def send(self, request):
        """The id of a message in the reserved place."""
        self.reserved -= 1
        self.messages.append(Message(self.ids.take(), request))
        return self.messages[-1].id

    def of(self, id):
        return next(message for message in self.messages if message.id == id)

    def queued(self):
        return [message for message in self.messages if message.request is not None]

    def unqueue(self, message):
        message.request = None
        self.places.leave()

    def remove(self, message):
        self.messages.remove(message)
        self.ids.give(message.id)

    def take(self):
        """The oldest message that isn't cancelled, with its request; or whether there were only others, or it is the end."""
        cleared = False
        for message in self.queued():
            request = message.request
            self.unqueue(message)
            if message.outcome != "cancelled":
                return message.id, request
            self.remove(message)
            cleared = True
        is_over = self.reserved == 0 and (self.is_closed or self.buffers == 0)
        return "cleared" if cleared else "end" if is_over else "empty"

    def live(self, id):
        message = self.of(id)
        if message.outcome == "cancelled":
            self.remove(message)
        return message.outcome == "open"

    def close(self):
        self.is_closed = True
        self.places.tickets = [ticket for ticket in self.places.tickets if ticket == Places.HELD]

    def fail(self, id, error):
        self.of(id).outcome = "failed"
        self.stored = error
        self.close()

    def outcome(self, id):
        message = self.of(id)
        if message.outcome != "open":
            self.remove(message)
        return message.outcome

    def forget(self, id):
        message = self.of(id)
        if message.outcome == "open":
            message.outcome = "cancelled"
            return
        self.remove(message)
        if not isinstance(message.outcome, str):
            message.outcome.drop()

    def worker_gone(self):
        for message in self.queued():
            self.unqueue(message)
        for message in list(self.messages):
            if message.outcome == "cancelled":
                self.remove(message)
            elif message.outcome == "open":
                message.outcome = "lost"
        self.close()
        self.has_worker = False


class Buffer:
    """Away, asking under a key, or with a place; and whether it has the share for a response."""

    def __init__(self, mail):
        self.mail = mail
        self.key = None
        self.has_place = False
        self.has_share = False

    def poll(self):
        if self.has_place:
            return "ready"
        if not self.has_share and not self.mail.share():
            return "error out of memory"
        self.has_share = True
        self.mail.stage.note("Reserve" if self.key is None else f"Look {self.key}")
        if self.mail.is_closed:
            self.key = None
            return self.mail.told()
        self.key = self.mail.reserve(self.key)
        self.has_place = self.key is None
        return "ready" if self.has_place else "pending"

    def call(self, request):
        self.mail.stage.note("Send")
        self.has_place = False
        if not self.mail.has_worker:
            self.mail.unreserve()
            return Reply(self.mail, None, self.mail.told())
        self.has_share = False
        return Reply(self.mail, self.mail.send(request), None)

    def clone(self):
        if not self.mail.share():
            return None
        self.mail.stage.note("Join")
        self.mail.buffers += 1
        return Buffer(self.mail)

    def drop(self):
        if self.key is not None:
            self.mail.stage.note(f"Cancel {self.key}")
            if not self.mail.is_closed:
                self.mail.places.leave(self.key)
        if self.has_place:
            self.mail.stage.note("Unreserve")
            self.mail.unreserve()
        self.mail.stage.note("Part")
        self.mail.buffers -= 1


class Reply:
    """Has an error to tell, waits for its message's outcome, or has got its response."""

    def __init__(self, mail, id, told):
        self.mail = mail
        self.id = id
        self.told = told
        self.response = None

    def poll(self):
        if self.told:
            return self.told
        if self.response:
            return within(self.response.poll())
        self.mail.stage.note(f"Outcome {self.id}")
        outcome = self.mail.outcome(self.id)
        if outcome == "open":
            return "pending"
        self.id = None
        if isinstance(outcome, str):
            return CLOSED if outcome == "lost" else self.mail.told()
        self.response = outcome
        return within(self.response.poll())

    def drop(self):
        if self.id is not None:
            self.mail.stage.note(f"Forget {self.id}")
            self.mail.forget(self.id)
        if self.response:
            self.response.drop()


class Worker:
    """A service, and the message that it keeps while that isn't ready."""

    def __init__(self, mail, inner):
        self.mail = mail
        self.inner = inner
        self.kept = None
        self.has_failed = False

    def work(self):
        if not self.inner:
            return "skipped"
        for _ in range(PASSES):
            answer = self.step()
            if answer:
                return answer
        return "pending"

    def step(self):
        """One pass, which may answer."""
        note = self.mail.stage.note
        if self.kept:
            (id, request), self.kept = self.kept, None
            note(f"Live {id}")
            return self.serve(id, request) if self.mail.live(id) else None
        note("Take")
        match self.mail.take():
            case "cleared":
                return None
            case "empty":
                return "pending"
            case "end":
                self.gone()
                return "ended"
            case id, request:
                if not self.has_failed:
                    return self.serve(id, request)
                note(f"FailStored {id}")
                self.mail.of(id).outcome = "failed"

    def serve(self, id, request):
        answer = self.inner.poll()
        if answer == "pending":
            self.kept = id, request
            return answer
        if answer == "ready":
            response = self.inner.call(request)
            self.mail.stage.note(f"Answer {id}")
            self.mail.of(id).outcome = response
        else:
            self.mail.stage.note(f"Fail {id}")
            self.mail.fail(id, answer.removeprefix("error "))
            self.has_failed = True

    def gone(self):
        self.mail.stage.note("WorkerGone")
        self.mail.worker_gone()
        self.inner.drop()
        self.inner = None

    def drop(self):
        if self.inner:
            self.gone()
        self.mail.stage.note("mail at its end, 0 requests left")


def buffer(rng):
    stage = Stage()
    places = rng.choice([1, 1, 2, 3, 10])
    mail = Mail(stage, places)
    worker = Worker(mail, Inner(stage.services, "s"))
    play = Play(stage, f"buffer {places}", Buffer(mail), ended=[worker])

    def work():
        play.ask("work", worker.work())

    def drop_worker():
        if rng.random() < 0.2 / times(rng):
            answer = None if worker.inner else "skipped"
            if worker.inner:
                worker.gone()
            play.ask("drop worker", answer)

    def shares():
        mail.shares = rng.choice([0, 1, 2]) if mail.shares == 255 else 255
        play.ask(f"shares {mail.shares}")

    hostile = Party(rng, play, [work] * 14 + [drop_worker, shares, shares], clones=True)
    left = how_many(rng)
    while left > 0:
        hostile.step()
        # Not much comes once the mail is closed.
        left = left - 1 if worker.inner else min(left, 20) - 1
    return play.end()


if __name__ == "__main__":
    write_hostile(sys.argv[1], "scripted_pool", "buffer", buffer)
