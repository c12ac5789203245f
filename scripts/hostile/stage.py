"""The parts of a script as plain values, and a hostile party that asks a middleware's machine and turns its parts."""

import os
import random
from itertools import islice
from string import ascii_lowercase

from script import Script, events, write

# With LONG scripts are ever longer, and no handle is dropped: so there are ever more handles and responses.
LONG = "LONG" in os.environ
EVENTS = 100_000 if LONG else 10_000
LAST_MOMENT = 2**64 - 1
HANDLES = ascii_lowercase if LONG else "abcdef"


class Stage:
    """What all parts look at: the list of notes, the moment of the clock, and the plans of the services and of the others."""

    def __init__(self):
        self.notes = []
        self.copies = 0
        self.moment = 0
        self.services = Plan(self)
        self.others = Plan(self)
        self.rooms = []
        self.refused = None

    def has_room(self, name):
        """Whether there is memory for what is named so: always, but for the one that is refused, by its number."""
        self.rooms.append((name, len(self.notes)))
        return len(self.rooms) - 1 != self.refused

    def note(self, text):
        self.notes.append(text)

    def drops(self, name):
        self.note(f"{name} dropped")

    def copy_of(self, name):
        """The name of the next copy: copies of all parts are counted together, up to 255."""
        self.copies = min(self.copies + 1, 255)
        return f"{name[0]}{self.copies}"

    def read(self):
        self.note(f"clock read {self.moment}")
        return self.moment

    def told(self):
        """The notes since the last look as a script has them: a note that repeats is counted, and drops in a row are one note."""
        counted = []
        for note in self.notes:
            if counted and counted[-1][0] == note:
                counted[-1][1] += 1
            else:
                counted.append([note, 1])
        self.notes = []
        told, drops = [], []
        for note, count in counted:
            times = f" x{count}" if count > 1 else ""
            if note.endswith(" dropped"):
                drops.append(note.removesuffix(" dropped") + times)
                continue
            if drops:
                told.append(", ".join(drops) + " dropped")
                drops = []
            told.append(note + times)
        if drops:
            told.append(", ".join(drops) + " dropped")
        return told


class Plan:
    """What the parts of one side answer: lists of eight at most, whose last goes on for ever."""

    def __init__(self, stage):
        self.stage = stage
        self.readiness = ["ready"]
        self.replies = ["echo"]
        self.clones = 255
        self.calls = 0
        self.answers = {}

    def next_readiness(self):
        return self.readiness.pop(0) if len(self.readiness) > 1 else self.readiness[0]

    def next_reply(self):
        return self.replies.pop(0) if len(self.replies) > 1 else self.replies[0]

    def next_call(self):
        self.calls += 1
        return self.calls - 1

    def clone(self, name):
        """The name of a copy, unless it is refused."""
        if self.clones == 0:
            self.stage.note(f"{name} refused")
            return None
        if self.clones < 255:
            self.clones -= 1
        copy = self.stage.copy_of(name)
        self.stage.note(f"{name} cloned {copy}")
        return copy

    def answer(self, call, answer):
        """Answers one of the first eight calls, if it came and has no answer."""
        if call >= min(self.calls, 8) or call in self.answers:
            return "skipped"
        self.answers[call] = answer
        return None


class Part:
    """A part that is only cloned and dropped."""

    def __init__(self, plan, name):
        self.plan = plan
        self.name = name

    def clone(self):
        copy = self.plan.clone(self.name)
        return None if copy is None else Part(self.plan, copy)

    def drop(self):
        self.plan.stage.drops(self.name)


class Inner(Part):
    """A service that follows a plan. Nobody may call it but after a poll that found it ready."""

    def __init__(self, plan, name):
        super().__init__(plan, name)
        self.is_ready = False

    def poll(self):
        answer = self.plan.next_readiness()
        self.plan.stage.note(f"{self.name} {answer}")
        self.is_ready = answer == "ready"
        return answer

    def called(self, request):
        assert self.is_ready, "a machine called a service that isn't ready"
        self.is_ready = False
        self.plan.stage.note(f"{self.name} called {request}")

    def call(self, request):
        self.called(request)
        return Response(self.plan, f"{self.name}({request})", request)

    def clone(self):
        copy = self.plan.clone(self.name)
        return None if copy is None else Inner(self.plan, copy)


class Response(Part):
    """The future of a call: its answer comes after some pending polls, never, or once the call is answered."""

    def __init__(self, plan, name, request):
        super().__init__(plan, name)
        self.call = plan.next_call()
        self.is_later = False
        self.polls = 0
        match plan.next_reply().split():
            case ["never"]:
                self.polls = None
            case ["later"]:
                self.is_later = True
            case ["echo" | "fail" as word, *polls]:
                self.answer = f"{'ok' if word == 'echo' else 'error'} {request}"
                self.polls = int(polls[0]) if polls else 0
            case [word, value, *after]:
                self.answer = f"{'ok' if word == 'ok' else 'error'} {value}"
                self.polls = int(after[1]) if after else 0

    def is_there(self):
        if self.is_later:
            return self.call in self.plan.answers
        return self.polls == 0

    def poll(self):
        if self.is_there():
            self.plan.stage.note(f"{self.name} ready")
            return self.plan.answers[self.call] if self.is_later else self.answer
        if self.polls:
            self.polls -= 1
        self.plan.stage.note(f"{self.name} pending")
        return "pending"


def within(answer, variant="Inner"):
    """The answer with its error in a variant of the outer one."""
    return answer.replace("error ", f"error {variant}(") + ")" if answer.startswith("error ") else answer


class Answered:
    """A response that is dropped as it answers."""

    def __init__(self, response):
        self.response = response

    def poll(self):
        answer = self.response.poll()
        if answer != "pending":
            self.drop()
        return within(answer)

    def drop(self):
        if self.response:
            self.response.drop()
        self.response = None


class Shares:
    """Shares of a latch, of which there are so many: 255 is always."""

    def __init__(self, stage, shares):
        self.stage = stage
        self.shares = shares

    def share(self):
        if self.shares == 0:
            self.stage.note("latch refused")
            return False
        if self.shares < 255:
            self.shares -= 1
        self.stage.note("latch shared")
        return True


class Play:
    """A script that a machine plays, by handles and futures as the program keeps them."""

    def __init__(self, stage, first, service, always=False, ended=()):
        self.stage = stage
        self.always = always
        self.handles = [service]
        self.may_call = [always]
        self.futures = []
        self.is_live = []
        self.ended = ended
        self.script = Script(first, None, stage.told())

    def ask(self, asked, answer=None):
        self.script.ask(asked, answer, self.stage.told())

    def poll(self, place):
        answer = "skipped"
        if self.handles[place]:
            answer = self.handles[place].poll()
            self.may_call[place] = self.always or answer == "ready"
        self.ask(f"poll {HANDLES[place]}", answer)

    def call(self, place, request):
        answer = "skipped"
        if self.handles[place] and self.may_call[place]:
            self.may_call[place] = self.always
            answer = f"call {len(self.futures)}"
            self.futures.append(self.handles[place].call(request))
            self.is_live.append(True)
        self.ask(f"call {HANDLES[place]} {request}", answer)

    def clone(self, place):
        answer = "skipped"
        if self.handles[place]:
            copy = self.handles[place].clone()
            answer = "out of memory" if copy is None else HANDLES[len(self.handles)]
            if copy is not None:
                self.handles.append(copy)
                self.may_call.append(self.always)
        self.ask(f"clone {HANDLES[place]}", answer)

    def drop_handle(self, place):
        answer = None if self.handles[place] else "skipped"
        if self.handles[place]:
            self.handles[place].drop()
            self.handles[place] = None
        self.ask(f"drop {HANDLES[place]}", answer)

    def future(self, number):
        answer = "skipped"
        if number < len(self.futures) and self.futures[number] and self.is_live[number]:
            answer = self.futures[number].poll()
            self.is_live[number] = answer == "pending"
        self.ask(f"fut {number}", answer)

    def drop_future(self, number):
        answer = "skipped"
        if number < len(self.futures) and self.futures[number]:
            self.futures[number].drop()
            self.futures[number] = None
            answer = None
        self.ask(f"drop {number}", answer)

    def end(self):
        """Drops handles, then futures, then what else there is."""
        for part in [*self.handles, *self.futures, *self.ended]:
            if part:
                part.drop()
        return self.script.end(self.stage.told())


class Hostile:
    """Asks at random, and changes between two asks what the parts answer and what the clock reads."""

    # How often each is asked.
    WEIGHTS = {"poll": 30, "call": 24, "future": 26, "drop_future": 6, "clone": 4, "drop_handle": 1, "turn": 14, "extra": 10}

    def __init__(self, rng, play, clones=True, others=False, marks=None, extras=()):
        self.rng = rng
        self.play = play
        self.sides = ["", "others "] if others else [""]
        self.marks = marks
        self.extras = extras
        left_out = {"clone": not clones, "drop_handle": not clones, "extra": not extras}
        self.asks = [ask for ask in self.WEIGHTS if not left_out.get(ask)]

    def steps(self, count):
        for _ in range(count):
            self.step()
        return self.play.end()

    def step(self):
        (ask,) = self.rng.choices(self.asks, [self.WEIGHTS[ask] for ask in self.asks])
        if self.marks and ask in ("poll", "call", "future"):
            self.clock()
        getattr(self, ask)()

    def extra(self):
        self.rng.choice(self.extras)()

    def clock(self):
        """The clock goes back in one reading of three, and stands in another. It likes moments next to the marks, and now and then the last one."""
        stage = self.play.stage
        near = [mark + step for mark in self.marks() for step in (-1, 0, 1)]
        near += [stage.moment + step for step in (-9, -2, -1, 1, 2, 9)]
        near += self.rng.choices([[], [0], [LAST_MOMENT - 3, LAST_MOMENT]], [14, 1, 1])[0]
        back = [moment for moment in near if 0 <= moment < stage.moment]
        forward = [moment for moment in near if stage.moment < moment <= LAST_MOMENT]
        moments = self.rng.choice([back, forward, []])
        if moments:
            stage.moment = self.rng.choice(moments)
            self.play.ask(f"at {stage.moment}")

    # Mostly one of these places, but sometimes any below the count.
    def place(self, fitting, count):
        if fitting and self.rng.random() < 0.9:
            return self.rng.choice(fitting)
        return self.rng.randrange(count)

    def handle(self):
        handles = self.play.handles
        return self.place([place for place, handle in enumerate(handles) if handle], len(handles))

    def poll(self):
        self.play.poll(self.handle())

    def call(self):
        may_call = self.play.may_call
        fitting = [place for place, handle in enumerate(self.play.handles) if handle and may_call[place]]
        if not fitting and self.rng.random() < 0.9:
            return self.poll()
        request = self.rng.choice([self.rng.randrange(256), self.rng.randrange(100), self.rng.randrange(8), 99, 100])
        self.play.call(self.place(fitting, len(may_call)), request)

    # Mostly one of the last six that may be polled.
    def future(self):
        futures, is_live = self.play.futures, self.play.is_live
        newest_first = (number for number in reversed(range(len(futures))) if futures[number] and is_live[number])
        fitting = [*islice(newest_first, 6)][::-1]
        if not fitting and self.rng.random() < 0.9:
            return self.poll()
        self.play.future(self.place(fitting, len(futures) + 1))

    def drop_future(self):
        futures = self.play.futures
        fitting = [number for number, future in enumerate(futures) if future]
        self.play.drop_future(self.place(fitting, len(futures) + 1))

    def clone(self):
        if len(self.play.handles) < len(HANDLES):
            self.play.clone(self.handle())

    def drop_handle(self):
        if LONG:
            return
        if sum(handle is not None for handle in self.play.handles) > 1 or self.rng.random() < 0.1:
            self.play.drop_handle(self.handle())

    def plan(self, side):
        return self.play.stage.others if side else self.play.stage.services

    def set_readiness(self, side, states):
        self.plan(side).readiness = states
        self.play.ask(f"{side}readiness {', '.join(states)}")

    def set_replies(self, side, replies):
        self.plan(side).replies = replies
        self.play.ask(f"{side}replies {', '.join(replies)}")

    def turn(self):
        """Another plan for one of the sides, or the answer of a call that waits for one."""
        side = self.rng.choice(self.sides)
        plan = self.plan(side)
        match self.rng.choice(["readiness", "readiness", "replies", "replies", "answer", "answer", "clones"]):
            case "readiness":
                self.set_readiness(side, self.list_of(self.state))
            case "replies":
                self.set_replies(side, self.list_of(self.reply))
            case "answer":
                waiting = [call for call in range(min(plan.calls, 8)) if call not in plan.answers]
                call, value = self.place(waiting, 10), self.rng.randrange(256)
                word = self.rng.choice(["ok", "err"])
                answer = plan.answer(call, f"{'ok' if word == 'ok' else 'error'} {value}")
                self.play.ask(f"{side}answer {call} {word} {value}", answer)
            case "clones":
                plan.clones = self.rng.choice([0, 1, 2, 255, 255])
                self.play.ask(f"{side}clones {plan.clones}")

    def list_of(self, item):
        return [item() for _ in range(self.rng.choice([1, 2, 3, 8]))]

    def state(self):
        return self.rng.choice(["ready", "ready", "ready", "pending", f"error {self.rng.randrange(256)}"])

    def reply(self):
        return self.rng.choice(["never", "later", "later", *self.replies_in_time()])

    def replies_in_time(self):
        """Replies that come after some polls."""
        polls, value = self.rng.randrange(4), self.rng.randrange(256)
        return ["echo", "fail", f"echo {polls}", f"fail {polls}", f"ok {value} after {polls}", f"err {value}"]


def times(rng):
    """How many times as long a script is as without LONG. What ends it comes so much seldomer."""
    return getattr(rng, "times", 1)


def how_many(rng, least=60):
    """How much a script asks."""
    return rng.randrange(least, 100) * times(rng)


def write_hostile(folder, crate, name, scripts):
    """Writes scripts, each of a random source, until there are events enough."""
    rng = random.Random(name + os.environ.get("SEED", ""))
    texts, count = [], 0
    while count < EVENTS:
        # With LONG each is twice as long as the one before it, up to 512 times.
        rng.times = 2 ** min(len(texts), 9) if LONG else 1
        texts.append(scripts(rng))
        count += events(texts[-1])
    write(os.path.join(folder, f"{crate}.{name}.script"), texts)
