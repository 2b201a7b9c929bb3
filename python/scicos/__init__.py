"""Scicos block diagrams in Python: drawn as they read, and judged by the program `scicos`.

Example:
    from scicos import Diagram, clock, delay, int16, saturation, sensor

    with Diagram("ramp", mode="saturate") as design:
        tick = clock(10)
        wanted = sensor(1, int16, on=tick)
        before = delay(int16, on=tick)
        ramp = before + saturation(wanted - before, -5, 5)
        before.feed(ramp)
    design.write("diagram.json")
"""
from __future__ import annotations

from .activation import Branches, andlog, clock, halt, on, select, timer, variable_timer, when
from .arithmetic import (abs_value, constant, convert, deadband, gain, greatest, least, product, quotient,
                         saturation, signum, summation)
from .bits import bitclear, bitset, demux, extractbits, extractor, mux, rotate, shift
from .decisions import both, choose, either, logic, logical_op, negation, relation, switch
from .diagram import Diagram
from .errors import DataError, DesignError, MissingError, ReadError, ScicosError, WordsError, WriteError
from .fixed import Q, scaled
from .grants import grant
from .integers import IntType, Mode, int8, int16, int32, uint8, uint16, uint32
from .kinds import KINDS, Kind
from .levels import INHERIT
from .making import later, later_event
from .memory import counted, counter, delay, gated_delay, hold, register, sensor
from .outputs import output
from .program import Program, ProgramError, Refusal, Refused
from .runs import Run, read_trace, simulate
from .signals import Event, Signal, Sink
from .subsystems import give, subsystem, take, take_event

__version__ = "1.0"

__all__ = [
    "Branches", "DataError", "DesignError", "Diagram", "Event", "INHERIT", "IntType", "Kind", "KINDS",
    "MissingError", "Mode", "Program", "ProgramError", "Q", "ReadError", "Refusal", "Refused", "Run",
    "ScicosError", "Signal", "Sink", "WordsError", "WriteError", "abs_value", "andlog", "bitclear", "bitset",
    "both", "choose", "clock", "constant", "convert", "counted", "counter", "deadband", "delay", "demux",
    "either", "extractbits", "extractor", "gain", "gated_delay", "give", "grant", "greatest", "halt",
    "hold", "int16", "int32", "int8", "later", "later_event", "least", "logic", "logical_op", "mux",
    "negation", "on", "output", "product", "quotient", "read_trace", "register", "relation", "rotate",
    "saturation", "scaled", "select", "sensor", "shift", "signum", "simulate", "subsystem", "summation",
    "switch", "take", "take_event", "timer", "uint16", "uint32", "uint8", "variable_timer", "when",
]
