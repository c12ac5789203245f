"""SpawnReady, its slot and its tasks over a hostile party."""

import sys

from stage import Answered, Hostile, Inner, Play, Stage, how_many, times, within, write_hostile

PASSES = 64


class Slot:
    """Idle, running, or aborted; or it holds a service, has failed with an error, or has ended."""

    def __init__(self):
        self.state = "idle"
        self.value = None

    def start(self):
        if self.state == "idle":
            self.state = "running"

    def put(self, state, value):
        if self.state == "running":
            self.state, self.value = state, value

    def gone(self):
        if self.state == "running":
            self.state = "ended"

    def is_aborted(self):
        return self.state == "aborted"

    def look(self):
        state, value = self.state, self.value
        self.state = {"holds": "idle", "failed": "ended"}.get(state, state)
        self.value = None
        return state, value

    def abort(self):
        if self.state == "holds":
            self.value.drop()
        self.state, self.value = "aborted", None


class Latch:
    """A share of a slot, whose steps may be noted, and whose shares may be refused then."""

    def __init__(self, stage, is_noted):
        self.stage = stage
        self.is_noted = is_noted
        self.slot = Slot()
        self.shares = 255

    def note(self, text):
        if self.is_noted:
            self.stage.note(text)

    def step(self, name, step, *values):
        self.note(name)
        return step(*values)

    def share(self):
        """Whether there is a further share."""
        if self.is_noted and self.shares == 0:
            self.note("share refused")
            return False
        if self.shares < 255:
            self.shares -= 1
        self.note("latch shared")
        return True

    def drop(self):
        self.note("latch dropped")


class ByTurns(Inner):
    """Pending unasked at the first poll, at the third, and so on."""

    is_asked = True

    def poll(self):
        self.is_asked = not self.is_asked
        if self.is_asked:
            return super().poll()
        self.plan.stage.note(f"{self.name} pending")
        return "pending"


class Task:
    """Has a service and a share of the latch until it is done."""

    def __init__(self, inner, latch):
        self.inner = inner
        self.latch = latch

    def poll(self):
        latch, slot = self.latch, self.latch.slot
        if latch.step("Aborted", slot.is_aborted):
            return self.done(latch, self.inner)
        answer = self.inner.poll()
        if answer == "pending":
            return "pending"
        if answer == "ready":
            latch.step("Put", slot.put, "holds", self.inner)
            return self.done(latch)
        latch.step("PutError", slot.put, "failed", answer)
        return self.done(latch, self.inner)

    def done(self, *left):
        for part in left:
            part.drop()
        self.latch = None
        return "ended"

    def drop(self):
        if self.latch:
            self.latch.step("TaskGone", self.latch.slot.gone)
            self.inner.drop()
            self.latch.drop()


class Tasks:
    """Those that were handed over, the newest last, unless each is polled at once and dropped."""

    def __init__(self, stage, at_once):
        self.stage = stage
        self.at_once = at_once
        self.waiting = []
        self.room = 255

    def spawn(self, task):
        """Whether it is taken."""
        if not self.at_once and self.room == 0:
            self.stage.note("not spawned")
            return False
        self.stage.note("spawned")
        if self.at_once:
            task.poll()
            task.drop()
        else:
            self.room -= 1
            self.waiting.append(task)
        return True

    def poll(self):
        if not self.waiting:
            return "skipped"
        answer = self.waiting[-1].poll()
        if answer == "ended":
            self.waiting.pop()
        return answer

    def drop_newest(self):
        if self.waiting:
            self.waiting.pop().drop()

    def drop(self):
        for task in self.waiting:
            task.drop()


class SpawnReady:
    """Its service, unless a task has it, and whether its slot runs already while the service is here."""

    def __init__(self, inner, tasks, latch):
        self.inner = inner
        self.tasks = tasks
        self.latch = latch
        self.is_running = False

    def poll(self):
        for _ in range(PASSES):
            answer = self.drive() if self.inner else self.look()
            if answer:
                return answer
        return "pending"

    def look(self):
        state, value = self.latch.step("Look", self.latch.slot.look)
        match state:
            case "holds":
                self.inner, self.is_running = value, False
                return None
            case "failed":
                return within(value)
            case "running":
                return "pending"
        return "error service is gone"

    def drive(self):
        answer = self.inner.poll()
        if answer != "pending":
            return within(answer)
        if not self.latch.share():
            return "error out of memory"
        if not self.is_running:
            self.latch.step("Start", self.latch.slot.start)
            self.is_running = True
        if self.tasks.spawn(Task(self.inner, self.latch)):
            self.inner = None
            return None
        self.latch.drop()
        return "error task was not spawned"

    def call(self, request):
        return Answered(self.inner.call(request))

    def drop(self):
        self.latch.step("Abort", self.latch.slot.abort)
        if self.inner:
            self.inner.drop()
        self.latch.drop()


class Party(Hostile):
    """Asks words of the program's own often. In half of the scripts no service ever fails: one that did is often gone for good."""

    WEIGHTS = {**Hostile.WEIGHTS, "extra": 40}

    def __init__(self, rng, play, extras, clones=False):
        super().__init__(rng, play, clones=clones, extras=extras)
        self.breaks = rng.random() < 0.5 / times(rng)

    def state(self):
        state = super().state()
        return state if self.breaks or not state.startswith("error ") else "pending"


FIRST = ["spawn_ready"] * 8 + ["spawn_ready at_once", "spawn_ready by_turns", "spawn_ready at_once by_turns", "spawn_ready_layer", "spawn_ready_layer cloned"]


def spawn_ready(rng):
    stage = Stage()
    first = rng.choice(FIRST)
    inner = (ByTurns if "by_turns" in first else Inner)(stage.services, "s")
    tasks, latch = Tasks(stage, "at_once" in first), Latch(stage, "layer" not in first)
    play = Play(stage, first, SpawnReady(inner, tasks, latch), ended=[tasks])

    def task():
        if tasks.waiting or rng.random() < 0.1:
            play.ask("task", tasks.poll())

    def drop():
        if rng.random() < 0.1 / times(rng):
            play.drop_handle(0)
        elif rng.random() < 0.1 / times(rng):
            tasks.drop_newest()
            play.ask("drop task")
        else:
            play.ask("drop ended")

    def room():
        tasks.room = rng.choice([0, 1, 2]) if tasks.room > 2 else 255
        play.ask(f"room {tasks.room}")

    def shares():
        latch.shares = rng.choice([0, 1, 2]) if latch.shares > 2 else 255
        play.ask(f"shares {latch.shares}")

    hostile = Party(rng, play, [task] * 10 + [drop, room, shares])
    left = how_many(rng)
    while left > 0:
        hostile.step()
        # Not much comes once the service is gone.
        left = min(left, 10) - 1 if latch.slot.state in ("ended", "aborted") else left - 1
    return play.end()


if __name__ == "__main__":
    write_hostile(sys.argv[1], "scripted_pool", "spawn_ready", spawn_ready)
