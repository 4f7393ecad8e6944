"""The wrong devices: those of `changes`, and those that are made mechanically, of `masks` and of bounds.py.

A block of `masks` is a place of the model and what is done wrong there:

    PLACE | FORM
    : SCENARIO ..
    = DEVICE; DEVICE: REASON
    ? DEVICE; DEVICE: WHAT WOULD TELL THEM
    - lines of model.py
    + lines to put there

forms.py says which devices a form makes. The scenarios, names and patterns, are tried first; others may tell a device too. Behind = stand devices that no
trace tells from the right one, and why; behind ? those that a trace would tell and no scenario does. `equal` has those of bounds.py: a reason, and below it a line for each device.
"""
import dataclasses
import os
import re
from typing import Callable, List

import bounds
import forms
from source import HERE


@dataclasses.dataclass(frozen=True)
class Device:
    """A device in words, how the names of its model are made, and why none tells it, with the sign of that line, where none does."""

    words: str
    make: Callable
    why: str = ""


@dataclasses.dataclass(frozen=True)
class Group:
    """Devices of one place, and the scenarios that are tried first."""

    place: str
    devices: List[Device]
    first: List[str] = dataclasses.field(default_factory=list)


class Wrong(Exception):
    """A table that doesn't fit the model."""


class Block:
    """A block of `changes` or `masks`: what stands before and behind the | of its first line, and its lines by their signs."""

    def __init__(self, file, number, text):
        first, *self.lines = text.strip("\n").split("\n")
        self.at = f"{file}:{number}"
        self.name, _, self.beside = first.rpartition(" | ")
        self.old, self.new = "\n".join(self.of("-")), "\n".join(self.of("+"))

    def of(self, sign):
        return [line[2:] for line in self.lines if line.startswith(sign)]

    def fault(self, model):
        """What is wrong with what it takes away, or none."""
        count = model.text.count(self.old)
        return None if count == 1 else f"{self.at}: model.py has what is taken away {count} times"


def blocks(name):
    """The blocks of a file, with an empty line between them."""
    with open(os.path.join(HERE, name), encoding="utf-8") as file:
        texts = file.read().split("\n\n")
    line, found = 1, []
    for text in texts:
        found.append(Block(name, line, text))
        line += text.count("\n") + 2
    return found


def of_masks(model):
    """The groups of `masks`."""
    groups = []
    for block in blocks("masks"):
        if fault := block.fault(model):
            raise Wrong(fault)
        why = reasons_of(block)
        devices = [Device(f"{block.name}: {words}", lambda block=block, new=new: model.changed(block.old, new), why.pop(words, ""))
                   for words, new in forms.devices(block.beside, block.new)]
        if why:
            raise Wrong(f"{block.at}: no device is {', '.join(why)}")
        groups.append(Group(block.name, devices, " ".join(block.of(":")).split()))
    return groups


def reasons_of(block):
    """Why a device of a block isn't told, of each that isn't."""
    found = {}
    for sign in "=?":
        for line in block.of(sign):
            names, _, reason = line.partition(": ")
            found.update((words, f"{sign} {reason}") for name in names.split("; ") for words in spelled_out(name))
    return found


def spelled_out(name):
    """The devices of a name: `3..5 7` are 3, 4, 5 and 7, and so with `bits` before and words behind."""
    match = re.fullmatch(r"(bits )?(\d+(?:\.\.\d+)?(?: \d+(?:\.\.\d+)?)*)( taken .*)?", name)
    if not match:
        return [name]
    ends = [[int(end) for end in word.split("..")] for word in match[2].split()]
    return [("bit " if match[1] else "") + str(k) + (match[3] or "") for end in ends for k in range(end[0], end[-1] + 1)]


def of_bounds(model):
    """The groups of bounds.py, one for each function of the model."""
    equal, groups = equal_bounds(), {}
    for words, function, text in bounds.devices(model.functions):
        device = Device(words, lambda function=function, text=text: model.with_function(function, text), equal.pop(words, ""))
        groups.setdefault(str(function), []).append(device)
    if equal:
        raise Wrong(f"equal: no device is {next(iter(equal))}")
    return [Group(name, devices) for name, devices in groups.items()]


def equal_bounds():
    """The reason of each device of `equal`."""
    with open(os.path.join(HERE, "equal"), encoding="utf-8") as file:
        paragraphs = [text.strip("\n").split("\n") for text in file.read().split("\n\n")]
    return {words: f"= {reason}" for reason, *lines in paragraphs for words in lines}
