#!/usr/bin/env python3
"""The reference for runs: what the run of one step at a time prints.

    run.py FILE [--script SCRIPT] [--steps N]  prints the output, or the refusal, and ends with the command's status
    run.py --generate N                        the same of a pipeline of N stages
    run.py --check                             judges the rows worked by hand

Every process keeps what its names and channels stand for and the commands that are left. The ends of channels are numbers;
an end has a partner and an inbox, which is what the partner has sent and not yet had taken. The processes that may have an
enabled step stand in a heap in the order of their paths, with the services behind them; one that waits comes back when a
message comes to an end on which it waits.
"""

import heapq
import os
import sys
from collections import deque

import trees as t
from evaluation_by_calls import Evaluation, chosen, listed, text_of
from names import HERE, PRELUDE
from processes import answer
from scripts import ScriptFault, scripts_of, shown
from trees import tree_of

STEPS = 100_000
STATUS = {"finished": 0, "awaiting": 10, "out of steps": 11, "broken": 12}
PUT, GET, CLOSE = "Put", "Get", "Close"
SERVICES = {"Console": "input", "StringTerminal": "output"}


class Source:
    """The declarations of an accepted source."""

    def __init__(self, text):
        self.functions, self.processes = {}, {}
        for one in tree_of(PRELUDE) + tree_of(text):
            if isinstance(one, t.Function):
                self.functions[one.name.name] = one
            if isinstance(one, t.Process):
                self.processes[one.name.name] = one


class End:
    """One end of a channel: its partner, what it has still to take, and who waits on it."""

    def __init__(self):
        self.partner, self.inbox, self.waits = None, deque(), None


class Process:
    """A process: its path, how many steps it has made, its names and channels, and the commands that are left."""

    def __init__(self, path, names, channels, body):
        self.path, self.steps, self.evaluation, self.parts = path, 0, None, None
        self.order, self.ready = (0, len(path), path), False
        self.go(body, names, channels)

    def go(self, body, names, channels):
        self.names, self.channels = names, channels
        self.commands = deque([*body.actions, body.last])

    @property
    def command(self):
        return self.commands[0]


class Service:
    """The far end of a channel of `run`: it awaits a constructor, a text, or has a line to send, until it is closed."""

    def __init__(self, number, kind, end, script):
        self.order, self.ready = (1, number), False
        self.kind, self.end, self.script = kind, end, deque(script)
        self.phase, self.records = None, []

    @property
    def asked(self):
        return self.phase == GET and not self.script


class Run:
    def __init__(self, source, scripts, budget):
        self.source, self.budget, self.steps = source, budget, 0
        self.ready, self.broken = [], False
        heading = source.processes["run"]
        row, channels, self.services = heading.row, {}, {}
        for name, channel_type in zip(row.inputs + row.outputs, heading.inputs + heading.outputs):
            near, far = self.channel()
            channels[name.name] = near
            service = Service(len(self.services), channel_type.name, far, scripts[name.name])
            self.services[name.name] = service
            self.wait(service, [far])
        self.living = 0
        self.bear(Process((), {}, channels, row.body))

    # Channels and waiting

    def channel(self):
        one, other = End(), End()
        one.partner, other.partner = other, one
        return one, other

    def send(self, end, message):
        self.receive(end.partner, [message])

    def receive(self, end, messages):
        end.inbox.extend(messages)
        if end.inbox and end.waits is not None:
            self.wake(end.waits)
            end.waits = None

    def wake(self, one):
        if not one.ready:
            one.ready = True
            heapq.heappush(self.ready, (one.order, one))

    def wait(self, one, ends):
        for end in ends:
            end.waits = one

    def bear(self, process):
        self.living += 1
        self.wake(process)

    # The run

    def run(self):
        """How the run ends."""
        while self.ready:
            one = heapq.heappop(self.ready)[1]
            one.ready = False
            step = self.service_step(one) if isinstance(one, Service) else self.process_step(one)
            if step is None:
                continue
            if self.steps == self.budget:
                return "out of steps"
            self.steps += 1
            if step():
                self.wake(one)
        if not self.living:
            return "finished"
        return "broken" if self.broken else "awaiting"

    def process_step(self, process):
        """The enabled step of a process, as a function that says whether the process may have a further one; or None."""
        command = process.command
        expressions = expressions_of(command)
        if expressions is not None and process.evaluation is None:
            process.evaluation = Evaluation(self.source.functions, expressions, process.names)
        if process.evaluation is not None and process.evaluation.broken:
            self.broken = True
            return None
        if process.evaluation is not None and not process.evaluation.done:
            return lambda: self.work(process)
        awaited = [process.channels[name] for name in awaited_by(command)]
        if awaited and not any(end.inbox for end in awaited):
            self.wait(process, awaited)
            return None
        return lambda: self.make(process, command)

    def work(self, process):
        process.steps += 1
        process.evaluation.call()
        return True

    def make(self, process, command):
        """Makes the step of a command. Says whether the process goes on."""
        process.steps += 1
        for end in (process.channels[name] for name in awaited_by(command)):
            end.waits = None
        if not isinstance(command, t.Plug):
            process.commands.popleft()
        values = process.evaluation.values if process.evaluation is not None else []
        process.evaluation = None
        getattr(self, type(command).__name__.lower())(process, command, *values)
        if not process.commands:
            self.living -= 1
        return bool(process.commands)

    def bear_child(self, parent, body, channels):
        self.bear(Process((*parent.path, parent.steps), parent.names, channels, body))

    # Commands

    def put(self, process, command, value):
        self.send(process.channels[command.channel.name], value)

    def get(self, process, command):
        value = process.channels[command.channel.name].inbox.popleft()
        if isinstance(command.binder, t.Variable):
            process.names = {**process.names, command.binder.name: value}

    def hput(self, process, command):
        self.send(process.channels[command.channel.name], command.constructor.name)

    def hcase(self, process, command):
        constructor = process.channels[command.channel.name].inbox.popleft()
        process.go(dict((name.name, body) for name, body in command.rows)[constructor], process.names, process.channels)

    def split(self, process, command):
        first, second = process.channels[command.channel.name].inbox.popleft()
        process.channels = {**process.channels, command.first.name: first, command.second.name: second}

    def fork(self, process, command):
        (first, first_far), (second, second_far) = self.channel(), self.channel()
        self.send(process.channels[command.channel.name], (first_far, second_far))
        (first_name, body), (second_name, other) = command.first, command.second
        self.bear_child(process, other, {**process.channels, second_name.name: second})
        process.go(body, process.names, {**process.channels, first_name.name: first})

    def close(self, process, command):
        pass

    def halt(self, process, command):
        pass

    def plug(self, process, command):
        """Peels the last part off that is still there; its one link to the parts before it becomes a channel."""
        parts = process.parts or breadth_first(command)
        last = parts.pop()
        names = links_of(command, last)
        earlier = {name for part in parts for name in links_of(command, part)}
        (name,) = names & earlier
        near, far = self.channel()
        self.bear_child(process, last.body, {**process.channels, name: far})
        process.channels = {**process.channels, name: near}
        process.parts = parts
        if len(parts) == 1:
            process.parts = None
            process.go(parts[0].body, process.names, process.channels)

    def race(self, process, command):
        body = next(body for name, body in command.rows if process.channels[name.name].inbox)
        process.go(body, process.names, process.channels)

    def case(self, process, command, value):
        body, names = chosen([([pattern], body) for pattern, body in command.rows], [value], process.names)
        process.go(body, names, process.channels)

    def identity(self, process, command):
        one, other = process.channels[command.left], process.channels[command.right.name]
        first, second = one.partner, other.partner
        first.partner, second.partner = second, first
        self.receive(first, other.inbox)
        self.receive(second, one.inbox)

    def processcall(self, process, command, *values):
        row = self.source.processes[command.name].row
        names = {one.name: value for one, value in zip(row.variables, values) if isinstance(one, t.Variable)}
        given = [process.channels[name.name] for name in command.inputs + command.outputs]
        process.go(row.body, names, {one.name: end for one, end in zip(row.inputs + row.outputs, given)})

    # Services

    def service_step(self, service):
        if service.asked:
            return None
        if service.phase != GET and not service.end.inbox:
            self.wait(service, [service.end])
            return None
        return lambda: self.serve(service)

    def serve(self, service):
        if service.phase == GET:
            line = service.script.popleft()
            service.records.append("< " + shown(line))
            self.send(service.end, listed(line))
            service.phase = None
        elif service.phase == PUT:
            service.records.append("> " + shown(text_of(service.end.inbox.popleft())))
            service.phase = None
        else:
            service.phase = service.end.inbox.popleft().removeprefix(service.kind)
            if service.phase == CLOSE:
                service.records.append("closed")
        return service.phase != CLOSE


# ---- Commands


def expressions_of(command):
    """The expressions of a command, or None."""
    if isinstance(command, (t.Put, t.Case)):
        return [command.value]
    return command.arguments if isinstance(command, t.ProcessCall) else None


def awaited_by(command):
    """The channels of which the command takes a message of one."""
    if isinstance(command, (t.Get, t.Hcase, t.Split)):
        return [command.channel.name]
    return [name.name for name, _ in command.rows] if isinstance(command, t.Race) else []


def links_of(command, part):
    return {name.name for name in part.inputs + part.outputs} & {link.name.name for link in command.links}


def breadth_first(command):
    """The parts of a plug by their distance from the first, neighbours in order of their number."""
    order = [command.parts[0]]
    for part in order:
        for other in command.parts:
            if other not in order and links_of(command, part) & links_of(command, other):
                order.append(other)
    return order


# ---- Output


def output_of(run, ended):
    lines = []
    for name, service in run.services.items():
        lines.append("channel " + name)
        lines.extend(service.records)
    if ended == "awaiting":
        ended += " " + ", ".join(name for name, service in run.services.items() if service.asked)
    lines.append("%s after %d steps" % (ended, run.steps))
    return "".join(line + "\n" for line in lines)


def ran(text, script="", budget=STEPS):
    """The status, the output and the line of a refusal."""
    told = answer(text)
    if told != "accepted":
        return 3, "", "campl: %s\n" % told
    source = Source(text)
    heading = source.processes["run"].row
    try:
        scripts = scripts_of(script, [name.name for name in heading.inputs + heading.outputs])
    except ScriptFault as fault:
        return 4, "", "campl: %s\n" % fault
    run = Run(source, scripts, budget)
    ended = run.run()
    return STATUS[ended], output_of(run, ended), ""


def generated(stages):
    """The source of a pipeline with so many stages; the one that is kept has a thousand."""
    kept = text_at(os.path.join(HERE, "../crates/typed_sources/data/chain_of_stages.campl"))
    return kept.replace("chain(1000 |", "chain(%d |" % stages)


def text_at(path):
    with open(path, encoding="utf-8", newline="") as file:
        return file.read().removeprefix("\ufeff")


def main(words):
    if words[0] == "--check":
        from run_rows import check

        return check()
    if words[0] == "--generate":
        stages = int(words[1])
        status, output, refusal = ran(generated(stages), "", 60 * stages + 200)
        output = "generated %d stages\n%s" % (stages, output)
    else:
        options = dict(zip(words[1::2], words[2::2]))
        script = text_at(options["--script"]) if "--script" in options else ""
        status, output, refusal = ran(text_at(words[0]), script, int(options.get("--steps", STEPS)))
    sys.stdout.write(output)
    sys.stderr.write(refusal)
    return status


if __name__ == "__main__":
    sys.setrecursionlimit(1_000_000)
    sys.exit(main(sys.argv[1:]))
