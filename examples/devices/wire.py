#!/usr/bin/env python3
"""A wire and an interrupt line between two ptys each: prints the four devices, then carries bytes between them until its standard input
ends. It may lose and damage bytes of the wire; the line goes one way, and drops what nobody reads. Prints at the end how many bytes it
carried, lost and damaged.
Assumes Linux and Python 3 alone.

usage: wire.py [--lose N] [--damage N] [--seed N]

--lose N: one byte in N is lost, each way      --damage N: one in N has a bit changed      --seed N: which ones"""
import argparse
import os
import random
import select
import sys
import tty

MOST = 4096     # bytes that are read at once, and kept of the line


class Device:
    """A pty: its name for a program, and this side of it. The program's side stays open here, so that a program may end and start again."""

    def __init__(self):
        self.near, self.far = os.openpty()
        tty.setraw(self.far)
        os.set_blocking(self.near, False)
        self.name = os.ttyname(self.far)
        self.unsent = b''

    def read(self):
        try:
            return os.read(self.near, MOST)
        except BlockingIOError:
            return b''

    def write(self, more=b''):
        """Writes what the program's side has room for; the rest waits here."""
        self.unsent += more
        try:
            self.unsent = self.unsent[os.write(self.near, self.unsent):]
        except BlockingIOError:
            pass


class Faults:
    """What happens to the bytes of a wire."""

    def __init__(self, lose, damage, seed):
        self.lose, self.damage, self.random = lose, damage, random.Random(seed)
        self.carried = self.lost = self.damaged = 0

    def happens(self, one_in):
        return one_in > 0 and self.random.randrange(one_in) == 0

    def carry(self, piece):
        out = bytearray()
        for byte in piece:
            self.carried += 1
            if self.happens(self.lose):
                self.lost += 1
            elif self.happens(self.damage):
                self.damaged += 1
                out.append(byte ^ 1 << self.random.randrange(8))
            else:
                out.append(byte)
        return bytes(out)


def serve(supervisor, main_end, line_in, line_out, faults):
    """Carries bytes until the standard input ends."""
    ways = {supervisor.near: (supervisor, main_end), main_end.near: (main_end, supervisor), line_in.near: (line_in, line_out)}
    while True:
        waiting = [device.near for device in (supervisor, main_end) if device.unsent]
        ready, room, _ = select.select([sys.stdin, *ways], waiting, [])
        if sys.stdin in ready and not os.read(sys.stdin.fileno(), MOST):
            return
        for near in set(ready) & ways.keys():
            source, sink = ways[near]
            sink.write(source.read() if sink is line_out else faults.carry(source.read()))
        line_out.unsent = b''
        for device in (supervisor, main_end):
            if device.near in room:
                device.write()


def main():
    words = argparse.ArgumentParser(usage=__doc__.split('usage: ')[1])
    for name, value in (('--lose', 0), ('--damage', 0), ('--seed', 1)):
        words.add_argument(name, type=int, default=value)
    given = words.parse_args()
    devices = [Device() for _ in range(4)]
    supervisor, main_end, line_in, line_out = devices
    print(f'supervisor {supervisor.name} {line_in.name}')
    print(f'main_end {main_end.name} {line_out.name}', flush=True)
    faults = Faults(given.lose, given.damage, given.seed)
    serve(*devices, faults)
    print(f'carried {faults.carried}, lost {faults.lost}, damaged {faults.damaged}')


if __name__ == '__main__':
    main()
