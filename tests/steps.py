#!/usr/bin/env python3
"""The reference for single steps: what each step of a run does, and what one sees of its configuration before and after it.

    steps.py DIRECTORY  writes data/cases.txt and stdout of the program `step_cases`

Processes, ends and channels have numbers in the order of their birth: process 0 is `run`, the services follow in the order of its
heading, and channel c has the ends 2c and 2c + 1. Of a channel of the heading `run` has the first end; of a fork's channels the
message has the second ends; of a plug's the first is on the output side.
"""

import heapq
import os
import sys

import trees as t
from evaluation_by_calls import Evaluation
from names import HERE, PRELUDE
from processes import answer
from run import CLOSE, GET, PUT, Process, Run, Service, Source, awaited_by, expressions_of, links_of
from run_rows import source
from scripts import scripts_of
from trees import tree_of

STEPS, CALLS = 30, 7
REQUESTS = {"Console": [PUT, GET, CLOSE], "StringTerminal": [GET, PUT, CLOSE]}
KINDS = {"Hput": "Pick", "Hcase": "Offer", "Plug": "Peel", "Identity": "Link", "Processcall": "Call"}


def kind_of(command):
    name = type(command).__name__
    return KINDS.get(name.capitalize(), name)


def words_of(value, numbers):
    """The words of a value, with the head before the parts."""
    if isinstance(value, bool) or isinstance(value, int):
        return [str(value)]
    if isinstance(value, str):
        return ["'%d" % ord(value)]
    head, parts = {"nil": ("[]", ()), "cell": (":", value[2:]), "pair": (",", value[2:])}.get(value[0], (None, ()))
    if head is None:
        head, parts = "#%d/%d" % (numbers[value[2]], len(value[3])), value[3]
    return [head, *(word for part in parts for word in words_of(part, numbers))]


def numbers_of(text):
    """The number of each constructor: its place in the declaration, from 0."""
    numbers = {kind + request: n for kind, requests in REQUESTS.items() for n, request in enumerate(requests)}
    for one in tree_of(PRELUDE) + tree_of(text):
        if isinstance(one, (t.Data, t.Protocol, t.Coprotocol)):
            lines = one.constructors if isinstance(one, t.Data) else one.lines
            numbers.update((line.name.name, n) for n, line in enumerate(lines))
    return numbers


class Steps(Run):
    """A run that tells each step."""

    def __init__(self, text, scripts):
        self.ends, self.people, self.births, self.numbers, self.entry = [], [], {}, numbers_of(text), {}
        super().__init__(Source(text), scripts, STEPS)
        first = self.people.pop()
        self.people = [first, *self.services.values()]

    # Numbers

    def channel(self):
        one, other = super().channel()
        self.entry.setdefault("channels", []).append(len(self.ends) // 2)
        self.ends += [one, other]
        return one, other

    def number(self, end):
        return next(n for n, one in enumerate(self.ends) if one is end)

    def who(self, one):
        return next(n for n, other in enumerate(self.people) if other is one)

    def bear(self, process):
        self.people.append(process)
        super().bear(process)

    def bear_child(self, parent, body, channels):
        super().bear_child(parent, body, channels)
        self.births[len(self.people) - 1] = (self.who(parent), parent.steps)
        self.entry["child"] = len(self.people) - 1

    # What one sees

    def stopped_before_call(self, process):
        """Whether a process stands before a call, with its evaluation begun."""
        expressions = expressions_of(process.command)
        if expressions is not None and process.evaluation is None:
            process.evaluation = Evaluation(self.source.functions, expressions, process.names)
        return process.evaluation is not None and not process.evaluation.done and not process.evaluation.broken

    def next_of(self, one):
        if isinstance(one, Service):
            return self.next_of_service(one)
        if not one.commands:
            return "Ended"
        calls = self.stopped_before_call(one)
        if one.evaluation is not None and one.evaluation.broken:
            return "Broken"
        return "Step(%s)" % ("Work" if calls else kind) if calls or (kind := self.kind_now(one)) else "Waits"

    def kind_now(self, process):
        command = process.command
        full = [n for n, end in enumerate(self.waits_of(process)) if end.inbox]
        if isinstance(command, t.Race):
            return "Choose(%d)" % full[0] if full else None
        return kind_of(command) if full or not awaited_by(command) else None

    def next_of_service(self, service):
        if service.phase == CLOSE:
            return "Ended"
        if service.phase == GET:
            return "Step(ServeLine)" if service.script else "Waits"
        if not service.end.inbox:
            return "Waits"
        return "Step(ServeText)" if service.phase == PUT else "Step(ServePick)"

    def waits_of(self, one):
        """The ends of which one takes a message next, or which it joins."""
        if isinstance(one, Service):
            return [] if one.phase in (GET, CLOSE) else [one.end]
        if not one.commands or self.stopped_before_call(one):
            return []
        command = one.command
        if isinstance(command, t.Identity):
            return [one.channels[command.left], one.channels[command.right.name]]
        return [one.channels[name] for name in awaited_by(command)]

    def seen(self):
        yield "at %d" % self.steps
        for number, one in enumerate(self.people):
            birth = "%d.%d" % self.births[number] if number in self.births else "-"
            ends = "".join(" %d" % self.number(end) for end in self.waits_of(one))
            yield "%d %s %s on%s" % (number, self.next_of(one), birth, ends)
        yield "%d Ended - on" % len(self.people)
        for service in self.services.values():
            yield "service %s" % ("asked" if service.asked else "-")
            yield from service.records
        ends = ["%s/%d" % ("-" if end.partner is None else self.number(end.partner), len(end.inbox)) for end in self.ends]
        yield " ".join(["ends", *ends, "-/0"])

    # Steps

    def told(self, one, kind):
        """The line of the step that was made."""
        entry, channels = self.entry, self.entry.get("channels", [])
        numbers = [entry.get("end"), entry.get("second"), entry.get("child"), *(channels + [None, None])[:2]]
        words = [self.who(one), kind, entry.get("weight", 1), *("-" if n is None else n for n in numbers), *entry.get("message", "-")]
        return "step " + " ".join(map(str, words))

    def message(self, message):
        if isinstance(message, tuple) and len(message) == 2 and message[0] in self.ends:
            return ["ends", *map(self.number, message)]
        if isinstance(message, str) and message in self.numbers:
            return ["pick", self.numbers[message]]
        return ["word", *words_of(message, self.numbers)]

    def make(self, process, command):
        if isinstance(command, (t.Get, t.Hcase, t.Split)):
            self.entry["message"] = self.message(process.channels[command.channel.name].inbox[0])
        if isinstance(command, t.Race):
            self.entry["end"] = next(self.number(end) for end in self.waits_of(process) if end.inbox)
        elif isinstance(command, t.Identity):
            self.entry["end"], self.entry["second"] = map(self.number, self.waits_of(process))
        elif getattr(command, "channel", None) is not None:
            self.entry["end"] = self.number(process.channels[command.channel.name])
        return super().make(process, command)

    def send(self, end, message):
        self.entry["message"] = self.message(message)
        super().send(end, message)

    def identity(self, process, command):
        one, other = self.waits_here(process, command)
        super().identity(process, command)
        for end in (one, other):
            end.partner = None
            end.inbox.clear()

    def waits_here(self, process, command):
        return process.channels[command.left], process.channels[command.right.name]

    def plug(self, process, command):
        """The end on the output side is the first, whoever has it."""
        last = (process.parts or [None])[-1] if process.parts else None
        super().plug(process, command)
        child = self.people[-1]
        near, far = self.ends[-2:]
        name = next(name for name, end in child.channels.items() if end is far)
        if name in {one.name for one in self.part_of(command, child).outputs}:
            for holder, end in ((child, near), (process, far)):
                holder.channels = {**holder.channels, name: end}

    def part_of(self, command, child):
        return next(part for part in command.parts if part.body.last is child.commands[-1])

    def serve(self, service):
        kind = service.phase
        self.entry["end"] = self.number(service.end)
        if kind != GET:
            message = service.end.inbox[0]
            number = None if kind == PUT else REQUESTS[service.kind].index(message.removeprefix(service.kind))
            self.entry["message"] = ["word", *words_of(message, self.numbers)] if kind == PUT else ["pick", number]
        return super().serve(service)

    def turns(self):
        """The lines of a run, step after step, and then of some calls at once."""
        yield from self.seen()
        while self.steps < STEPS and (line := self.turn()) is not None:
            yield line
            yield from self.seen()
        yield from self.calls()

    def turn(self):
        """Makes the step of the first who has one, and gives its line."""
        while self.ready:
            one = heapq.heappop(self.ready)[1]
            one.ready = False
            step = self.service_step(one) if isinstance(one, Service) else self.process_step(one)
            if step is not None:
                kind, self.entry = self.next_of(one).removeprefix("Step(").removesuffix(")"), {}
                self.steps += 1
                if step():
                    self.wake(one)
                return self.told(one, kind)
        return None

    def calls(self):
        """The first process that stands before a call makes some at once."""
        for one in self.people:
            if isinstance(one, Process) and self.next_of(one) == "Step(Work)":
                weight = 0
                while weight < CALLS and self.next_of(one) == "Step(Work)":
                    self.work(one)
                    weight += 1
                self.entry = {"weight": weight}
                yield self.told(one, "Work")
                yield from self.seen()
                return


STREAM = """protocol Stream(a) => S where
    Item :: Put(a | S) => S
    Done :: TopBot => S
fun double :: Int -> Int where
    n -> n * 2
proc count :: Int | => Stream(Int) where
    n | => o -> case n < 2 of
        True -> do
            hput Item on o
            put double(n) on o
            count(n + 1 | => o)
        False -> do
            hput Done on o
            halt o
proc drain :: | Stream(Int) => where
    | i => -> hcase i of
        Item -> do
            get n on i
            drain( | i => )
        Done -> halt i
proc run :: | => where
    | => -> plug s :: Stream(Int) of
        => s -> count(1 | => s)
        s => -> drain( | s => )
"""
DOWN = """fun down :: Int -> Int where
    n -> if n == 0 then 0 else down(n - 1)
proc run :: | => where
    | => -> case down(32) of
        n -> halt
"""
BROKEN = """fun grown :: Int, [Char] -> [Char] where
    n, s -> if n == 0 then s else grown(n - 1, s ++ s)
proc run :: | Console => where
    | console => -> do
        hput ConsolePut on console
        put grown(13, "x") on console
        hput ConsoleClose on console
        halt console
"""
CASES = [
    ("hello", source("prints_hello"), ""),
    ("line", source("reads_a_line"), "console: hi\n"),
    ("no_line", source("reads_a_line"), ""),
    ("ends", source("ends_travel"), ""),
    ("links", source("links_behind_a_send"), ""),
    ("races", source("races_two_terminals"), "t1: A\nt2: B\n"),
    ("second_branch", source("races_two_terminals"), "t2: B\n"),
    ("box", source("gives_a_box"), ""),
    ("endless", source("never_returns"), ""),
    ("door", source("races_a_door"), ""),
    ("stream", STREAM, ""),
    ("few_calls", DOWN, ""),
    ("broken", BROKEN, ""),
]


def main(words):
    directory = words[0]
    with open(os.path.join(directory, "data/cases.txt"), "w", encoding="utf-8") as cases, open(os.path.join(directory, "stdout"), "w", encoding="utf-8") as told:
        for name, text, script in CASES:
            assert answer(text) == "accepted", name
            cases.write("== %s\n%s--\n%s" % (name, script, text))
            heading = Source(text).processes["run"].row
            run = Steps(text, scripts_of(script, [one.name for one in heading.inputs + heading.outputs]))
            told.write("== %s\n" % name + "".join(line + "\n" for line in run.turns()))


if __name__ == "__main__":
    main(sys.argv[1:])
