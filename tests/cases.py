#!/usr/bin/env python3
"""The standard input and output of the programs of cases. Each is a crate NAME, and tests/NAME.py has its model, which makes both.

usage: tests/cases.py write | check

write: writes crates/NAME/stdin and crates/NAME/stdout of every program
check: compares them with what the models work out"""
import importlib
import sys

sys.dont_write_bytecode = True
from common import compared, serve, written

PROGRAMS = ('line_cases', 'supervisor_cases', 'rot_cases', 'address_cases', 'requester_cases')


def each(way):
    for name in PROGRAMS:
        way(name, *importlib.import_module(name).texts())


if __name__ == '__main__':
    serve(__doc__, write=lambda: each(written), check=lambda: each(compared))
