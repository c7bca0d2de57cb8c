#!/usr/bin/env python3
"""A manager, two clients and a monitor in Python, each a coroutine that goes on at every clock edge.

It stands for a bench in cocotb, which isn't needed here: where it says `await clock.edge()`, a bench in cocotb says
`await RisingEdge(dut.clk)`, and `wire.valid` is a signal of the design. What is written at an edge is seen at the next.
"""

import random
import types

from hefrudyl import Beat, Channel, Client, Code, Level, Manager, Monitor, Operation, Outcome, Perm

BLOCKS = 4
CYCLES = 4000
FROM_CLIENT = (Channel.A, Channel.C, Channel.E)
FROM_MANAGER = (Channel.B, Channel.D)
READ, WRITE, UPGRADE = 0, 1, 2  # the grows of an Acquire: NtoB, NtoT, BtoT


class Wire:
    """A channel of a link: its signals as they are until the next edge, and as they are from then on."""

    def __init__(self):
        self.valid, self.ready, self.beat = False, False, None
        self.coming = {}

    def drive(self, **signals):
        self.coming.update(signals)

    def settle(self):
        for name, value in self.coming.items():
            setattr(self, name, value)
        self.coming = {}

    def moves(self):
        return self.valid and self.ready


class Clock:
    """Runs coroutines from edge to edge."""

    def __init__(self, wires):
        self.wires = wires
        self.tasks = []
        self.cycle = 0

    def start(self, task):
        self.tasks.append(task)

    @types.coroutine
    def edge(self):
        yield

    def run(self, cycles):
        for self.cycle in range(cycles):
            for task in self.tasks:
                task.send(None)
            for wire in self.wires:
                wire.settle()


def fire(wire, beat):
    """Shows what is to be sent next, or nothing."""
    wire.drive(valid=beat is not None, beat=beat)


async def manager_end(clock, manager, links):
    """Takes what comes, one request of all links at a time, and sends what is handed out."""
    while True:
        await clock.edge()
        for number, link in enumerate(links):
            for channel in FROM_MANAGER:
                if link[channel].moves():
                    manager.pop(number, channel)
        for channel in FROM_CLIENT:
            for number, link in enumerate(links):
                if link[channel].moves():
                    admitted = manager.offer(number, link[channel].beat)
                    assert admitted.code is Code.OK and admitted.taken, f"link {number}: {admitted}"
        for number, link in enumerate(links):
            for channel in FROM_MANAGER:
                fire(link[channel], manager.next(number, channel))
            link[Channel.C].drive(ready=True)
            link[Channel.E].drive(ready=True)
        await_request(clock, manager, links)


def await_request(clock, manager, links):
    """Makes the request of one link ready: one that stays on the wire and needn't wait."""
    chosen = None
    for k in range(len(links)):
        number = (clock.cycle + k) % len(links)
        wire = links[number][Channel.A]
        if chosen is None and wire.valid and not wire.moves() and not manager.stalls(number, wire.beat):
            chosen = number
    for number, link in enumerate(links):
        link[Channel.A].drive(ready=number == chosen)


async def client_end(clock, client, link, processor):
    """Takes what comes, lets its processor go on, and sends what is handed out."""
    while True:
        await clock.edge()
        for channel in FROM_CLIENT:
            if link[channel].moves():
                client.pop(channel)
        for channel in FROM_MANAGER:
            if link[channel].moves():
                received = client.offer(link[channel].beat)
                assert received.code is Code.OK, received
        processor.step(client)
        for channel in FROM_CLIENT:
            fire(link[channel], client.next(channel))
        link[Channel.D].drive(ready=True)
        probe = link[Channel.B]
        probe.drive(ready=probe.valid and not probe.moves() and not client.stalls(probe.beat))


async def monitor_end(clock, monitor, links):
    """Judges each beat at the edge at which it is taken."""
    while True:
        await clock.edge()
        for number, link in enumerate(links):
            for channel in Channel:
                if link[channel].moves():
                    verdict = monitor.push(number, link[channel].beat)
                    assert verdict, f"cycle {clock.cycle}: link {number} breaks {verdict.rule}: {link[channel].beat}"


class Processor:
    """Loads and stores at random. What it loads is compared with one memory."""

    def __init__(self, seed, memory):
        self.random, self.memory = random.Random(seed), memory
        self.operation, self.done = None, 0

    def chosen(self):
        address = 8 * self.random.randrange(8 * BLOCKS)
        return self.random.choice((Operation.LOAD, Operation.STORE)), address, self.random.getrandbits(64)

    def step(self, client):
        kind, address, value = self.operation = self.operation or self.chosen()
        reply = client.ask(kind, address=address, size=3, value=value if kind is Operation.STORE else 0)
        if reply.kind is Outcome.MISS:
            held = client.held(address // 64)
            grow = READ if kind is Operation.LOAD else UPGRADE if held is Perm.BRANCH else WRITE
            if client.next(Channel.C) is None:  # an Acquire waits until the answers to Probes are sent
                client.ask(Operation.ACQUIRE, block=address // 64, param=grow)
            return
        if kind is Operation.LOAD:
            wanted = self.memory[address]
            assert reply.value == wanted, f"{address:x} has {reply.value:x}, wanted {wanted:x}"
        else:
            self.memory[address] = value
        self.operation, self.done = None, self.done + 1


def main():
    links = [{channel: Wire() for channel in Channel} for _ in range(2)]
    memory = {address: 0 for address in range(0, 64 * BLOCKS, 8)}
    processors = [Processor(seed, memory) for seed in (1, 2)]
    clock = Clock([wire for link in links for wire in link.values()])
    with Manager([(Level.C, 2)] * 2, BLOCKS) as manager, Monitor([Level.C] * 2) as monitor, \
            Client(Level.C, BLOCKS, 2) as first, Client(Level.C, BLOCKS, 2) as second:
        clients = [first, second]
        clock.start(manager_end(clock, manager, links))
        clock.start(monitor_end(clock, monitor, links))
        for client, link, processor in zip(clients, links, processors):
            clock.start(client_end(clock, client, link, processor))
        clock.run(CYCLES)
        copies = 0
        for client in clients:
            for block in range(BLOCKS):
                copy = client.copy(block)
                copies += copy is not None
                for place in range(0, 64, 8) if copy else ():
                    word = int.from_bytes(copy[place:place + 8], "little")
                    assert word == memory[64 * block + place], f"block {block} at {place}"
        assert copies > 0 and all(processor.done > 100 for processor in processors), (copies, processors)
        assert not any(manager.closed(number) for number in range(2)) and manager.closed(2)
        stray = manager.offer(0, Beat(Channel.E, sink=7))
        assert stray.code is Code.BROKEN and stray.rule == "H8" and manager.closed(0), stray
    print(f"{sum(processor.done for processor in processors)} operations in {CYCLES} cycles, {copies} copies")
    print("0 failures")


if __name__ == "__main__":
    main()
