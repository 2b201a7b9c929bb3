"""Sentences for what is wrong with an object alone: its fields, its ports, its parameters, its tags (rules 2
to 11, 14, 31 to 34).
"""
from __future__ import annotations

import difflib
from typing import Callable

from .flat import PASSING
from .kinds import KINDS
from .message_rows import bounds, length, size_rule, type_rule
from .message_parts import PORTS, SIDES, Told, a, between, plural, type_name

FIELDS = dict(enumerate("objs obj gui model sim in in2 intyp out out2 outtyp evtin evtout dstate rpar ipar "
                        "firing dep_ut from to ct".split(), 1))
WANTED = {"objs": "a list of objects", "obj": "one of Block, Link, Text, Deleted",
          "gui": "the name of a kind", "model": "an object of fields",
          "sim": "a text, or a list that begins with one", "rpar": "a diagram, with a list objs",
          "dep_ut": "a list as [false, false]",
          "from": "a list as [object, port, side]", "to": "a list as [object, port, side]",
          "ct": "a list of a colour and 1 or -1"}
LISTS = {1: "ipar", 2: "dstate", 3: "firing", 4: "dep_ut"}


def _missing(told: Told) -> str:
    name = FIELDS.get(told.detail(0), "?")
    return f"{told.it} has no field `{name}`; write it: {WANTED.get(name, 'a list of whole numbers')}"


def _wrong_field(told: Told) -> str:
    name = FIELDS.get(told.detail(0), "?")
    return (f"{told.it} has a field `{name}` that is not "
            f"{WANTED.get(name, 'a list of whole numbers, each without point or exponent')}; mend that field")


def _too_deep(told: Told) -> str:
    return (f"{told.it} has diagrams inside that are nested more than {told.detail(0)} deep; draw what is "
            "inside in its place")


def _too_many(what: str, most: int, instead: str) -> Callable[[Told], str]:
    return lambda told: f"{told.flat.file} has {told.detail(0)} {what}, and {most} are the most; {instead}"


def _tag_shape(told: Told) -> str:
    if told.detail(0) == 1:
        return f"{told.it} gives or takes a tag by exactly one port, and has others; give it that one port"
    item = told.flat.item(told.place)
    gives = item is not None and item.kind in ("GOTO", "CLKGOTO")
    form = "[tag, scope] with a scope of 1 (its own diagram) or 3 (everywhere)" if gives else "the tag alone"
    return f"{told.it} has an ipar that is not {form}, where a tag is from 1 to 2147483647; mend ipar"


def _tag_twice(told: Told) -> str:
    mine = told.flat.item(told.place)
    tag = told.detail(0)
    others = [item for item in told.flat.items() if mine is not None and item.kind == mine.kind
              and item.place < told.place
              and item.numbers("ipar")[:2] == mine.numbers("ipar")[:2]
              and (mine.numbers("ipar")[1:2] == [3] or item.place[:-1] == mine.place[:-1])]
    first = f", which {told.who(others[0].place)} gives already" if others else " a second time"
    return f"{told.it} gives the tag {tag}{first}; give one of them another tag"


def _tag_missing(told: Told) -> str:
    item = told.flat.item(told.place)
    giver = "CLKGOTO" if item is not None and item.kind == "CLKFROM" else "GOTO"
    elsewhere = [other for other in told.flat.items() if other.kind == giver
                 and other.numbers("ipar")[:1] == [told.detail(0)]]
    hint = (f"{told.who(elsewhere[0].place)} gives it in its own diagram alone: give it scope 3" if elsewhere
            else f"give it by a {giver}, or take another tag")
    return f"{told.it} takes the tag {told.detail(0)}, which nothing gives here; {hint}"


def _super_ports(told: Told) -> str:
    gui = {1: "IN_f", 2: "OUT_f", 3: "CLKINV_f", 4: "CLKOUTV_f"}.get(told.detail(0), "port block")
    what = PORTS.get(told.detail(0), "port")
    if not told.place:
        return (f"{told.flat.file} has {a(gui)} outside of any superblock; port blocks stand inside of "
                "superblocks alone")
    return (f"{told.it} and the {gui} blocks inside of it disagree about {what} {told.detail(1)}; "
            f"each {what} of a superblock has one {gui} inside, numbered from 1 in ipar")


def _unknown_kind(told: Told) -> str:
    item = told.flat.item(told.place)
    gui = item.fields.get("gui") if item else None
    near = difflib.get_close_matches(str(gui), [*KINDS, *sorted(PASSING)], 1)
    hint = (f"did you mean {near[0]}?" if near else "the blocks of Scicos's palettes that are superblocks "
                                                    "have to be drawn out; docs/FORMAT.md lists the kinds")
    return f"{told.it} is of the kind {gui!r}, which there is not; {hint}"


def _port_shape(told: Told) -> str:
    what, found = told.detail(0), told.detail(1)
    kind = told.kind
    if what == 3 and found == 0 and kind is not None:
        return (f"{told.it} has no activation input: {a(kind.name)} has to be clocked; give it evtin and "
                "lead an activation link to it")
    if what in PORTS and kind is not None:
        due = {1: kind.inputs, 2: kind.outputs, 3: kind.activations, 4: kind.events}[what]
        return (f"{told.it} has {plural(found, PORTS[what])}, and {a(kind.name)} has "
                f"{between(due, PORTS[what])}; mend its list {('in', 'out', 'evtin', 'evtout')[what - 1]}")
    name = {5: "in2", 6: "intyp", 7: "out2", 8: "outtyp", 9: "firing"}.get(what, "?")
    due_text = "one entry" if name == "firing" else "an entry for each port" + (", or none"
                                                                                if name.endswith("2") else "")
    return (f"{told.it} has {plural(found, 'entry').replace('entrys', 'entries')} in its list {name}, which "
            f"has to have {due_text}; mend {name}")


def _not_integer(told: Told) -> str:
    return (f"{told.it} has the type {told.detail(2)} at {SIDES.get(told.detail(0), 'port')} "
            f"{told.detail(1)}, which is no integer type; "
            "take a code from 3 (int32) to 8 (uint8): there are no reals")


def _always(told: Told) -> str:
    return (f"{told.it} is to be always active, by the second part of its dep_ut, which is for continuous "
            "time; write false there, and clock the block")


def _parameter(told: Told) -> str:
    name, at, value = LISTS.get(told.detail(0), "?"), told.detail(1), told.detail(2)
    kind = told.kind
    names = {"ipar": kind.ipar, "dstate": kind.state, "firing": ("first",)}.get(name, ()) if kind else ()
    if name == "dep_ut":
        return (f"{told.it} has a dep_ut that its kind does not take: false may be said only of an input "
                "without feedthrough; mend dep_ut")
    item = told.flat.item(told.place)
    if at == 0:
        return (f"{told.it} has {plural(value, 'value')} in {name}, and has to have {length(item, name)}; "
                f"mend {name}")
    if name == "firing":
        return (f"{told.it} has {value} for the date of its first event, and it has to be -1 (none) or from "
                "0 to 2147483647; mend firing")
    which = names[min(at, len(names)) - 1] if names else "value"
    due = bounds(item, name, which)
    return f"{told.it} has {value} for {which}, entry {at} of {name}, and it has to be {due}; mend {name}"


def _type_not_here(told: Told) -> str:
    if told.detail(0) == 1:
        side, port = SIDES.get(told.detail(1), "port"), told.detail(2)
        kind = told.kind.name if told.kind else "block"
        return (f"{told.it} has a type at {side} {port} that {a(kind)} does not take: {type_rule(kind)}; "
                "mend the type, or put a CONVERT there")
    name, at = LISTS.get(told.detail(1), "?"), told.detail(2)
    item, row = told.flat.item(told.place), told.kind
    values = item.entries(name) if item else []
    value = values[at - 1] if 0 < at <= len(values) else "a value"
    codes = (item.numbers("outtyp") or item.numbers("intyp")) if item else []
    of = f" of {type_name(codes[0])}" if codes and codes[0] > 0 else ""
    names = row.ipar if row and name == "ipar" else ()
    which = names[min(at, len(names)) - 1] if names else ""
    if which in ("bit", "n", "first", "last"):
        return (f"{told.it} has {value} for {which}, entry {at} of ipar, and for its type{of} it has to be "
                f"{bounds(item, name, which)}; mend ipar")
    if which == "base":
        return (f"{told.it} has the base {value}, which is more than 1 above the greatest value of its "
                f"type{of}; "
                "take a lesser base, or a wider type")
    return (f"{told.it} has {value} as entry {at} of {name}, which is outside of its type{of}; take a value "
            f"within "
            "the type, or a wider type")


def _shape(told: Told) -> str:
    kind = told.kind.name if told.kind else "block"
    if told.detail(0) == 1:
        return (f"{told.it} has a size at {SIDES.get(told.detail(1), 'port')} {told.detail(2)} that "
                f"{a(kind)} "
                f"does not take: {size_rule(kind)}; mend that size")
    name = LISTS.get(told.detail(1), "?")
    if kind == "EXTRACTOR":
        return (f"{told.it} asks by entry {told.detail(2)} of ipar for an element that its input does not "
                "have; take a number up to its elements")
    return (f"{told.it} has {plural(told.detail(2), 'value')} in {name}, and its size asks for another "
            f"number: one, or one for each element; mend {name}")


def _too_large(told: Told) -> str:
    if not told.place:
        return (f"{told.flat.file} has outputs of {told.detail(1)} elements together, and 65536 are the "
                "most; take shorter vectors")
    return (f"{told.it} has {told.detail(1)} elements at output {told.detail(0)}, and 256 are the most; take "
            "shorter vectors")


RULES: dict[int, Callable[[Told], str]] = {
    2: _missing, 3: _wrong_field, 4: _too_deep,
    5: _too_many("blocks", 2048, "cut the design into several diagrams"),
    6: _too_many("links", 16384, "cut the design into several diagrams"),
    34: _too_many("tag objects", 1024, "use links in place of tags"),
    31: _tag_shape, 32: _tag_twice, 33: _tag_missing, 14: _super_ports, 7: _unknown_kind, 9: _port_shape,
    10: _not_integer, 11: _always,
    8: _parameter, 21: _type_not_here, 22: _shape, 23: _too_large,
}
