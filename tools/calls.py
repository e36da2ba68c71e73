#!/usr/bin/env python3
"""Writes ASL of methods that call each other, for asl.sh: calls.py FOLDER COUNT. Each file has a namespace of its own, with
devices, methods and named values that have few names, so that most names are those of several objects. A method is called by each
kind of name that finds it (ACPI 6.5, 5.3): from the root, after `^`, by several segments, or by one that is searched. The number
of a file is the seed of its random choices, so a block that fails is written again by the same command."""

import pathlib
import random
import sys

NAMES = ["AAAA", "BBBB", "CCCC", "DDDD", "EEEE", "FFFF"]
DEEPEST = 3
NUMBERS = ["Zero", "One", "0x12", "0x1234"]


class Node:
    """An object of a namespace: a scope, a device, a method with a number of arguments, or a named value."""

    def __init__(self, name, kind, args=0, around=None):
        self.name, self.kind, self.args, self.around = name, kind, args, around
        self.inside = []
        self.path = around.path + [name] if around else []
        if around:
            around.inside.append(self)

    def scopes(self):
        """Itself and the scopes around it, up to the root."""
        return [self] + (self.around.scopes() if self.around else [])

    def all(self):
        """Itself and all objects inside."""
        return [self] + [node for inner in self.inside for node in inner.all()]


class Block:
    """A definition block, by the seed of its choices."""

    def __init__(self, seed):
        self.random = random.Random(seed)
        self.root = Node("", "scope")
        system = Node("_SB", "scope", around=self.root)
        self.fill(self.root, 0)
        self.fill(system, 0)
        self.named = [node for node in self.root.all() if node.kind in ("method", "name")]
        self.methods = [node for node in self.named if node.kind == "method"]

    def fill(self, around, depth):
        """Makes objects in a scope."""
        for name in self.random.sample(NAMES, self.random.randint(1, 4)):
            kind = self.random.choice(["device", "method", "method", "name"] if depth < DEEPEST else ["method", "name"])
            node = Node(name, kind, self.random.randint(0, 4) if kind == "method" else 0, around)
            if kind == "device":
                self.fill(node, depth + 1)

    def name_of(self, node, scope):
        """A name that finds an object from a scope."""
        names = ["\\" + ".".join(node.path)]
        for up, around in enumerate(scope.scopes()):
            rest = node.path[len(around.path) :]
            if node.path[: len(around.path)] == around.path and rest and (up or len(rest) > 1):
                names.append("^" * up + ".".join(rest))
        found = (inner for around in scope.scopes() for inner in around.inside if inner.name == node.name)
        if next(found, None) is node:
            names.append(node.name)
        return self.random.choice(names)

    def value(self, scope, depth):
        """A number, a named value or a call."""
        if depth == 0 or self.random.random() < 0.25:
            return self.random.choice(NUMBERS)
        node = self.random.choice(self.named)
        return self.call(node, scope, depth) if node.kind == "method" else self.name_of(node, scope)

    def call(self, method, scope, depth):
        """A call of a method with its arguments."""
        arguments = ", ".join(self.value(scope, depth - 1) for _ in range(method.args))
        return f"{self.name_of(method, scope)} ({arguments})"

    def statement(self, scope):
        """A statement of a method's body."""
        named = self.name_of(self.random.choice(self.named), scope)
        choices = [
            f"Store (ObjectType ({named}), Local0)",
            f"If (CondRefOf ({named}, Local1)) {{ Noop }}",
            f"Store (Add ({self.value(scope, 2)}, {self.value(scope, 2)}), Local2)",
        ]
        choices += [self.call(self.random.choice(self.methods), scope, 3)] * 7 if self.methods else []
        return self.random.choice(choices)

    def lines(self, around):
        """The ASL of the objects in a scope. What is in a device may stand in a Scope after it."""
        for node in around.inside:
            if node.kind == "name":
                yield f"Name ({node.name}, One)"
            elif node.kind == "method":
                body = [self.statement(node) for _ in range(self.random.randint(1, 3))]
                yield f"Method ({node.name}, {node.args}, NotSerialized) {{"
                yield from body + ["Return (One)", "}"]
            elif node.kind == "device" and self.random.random() < 0.7:
                yield from [f"Device ({node.name}) {{", "Name (_ADR, One)", *self.lines(node), "}"]
            else:
                if node.kind == "device":
                    yield f"Device ({node.name}) {{ Name (_ADR, One) }}"
                name = self.random.choice([node.name, "\\" + ".".join(node.path)])
                yield from [f"Scope ({name}) {{", *self.lines(node), "}"]

    def text(self):
        """The ASL of the block, at times in a Scope of the root."""
        lines = list(self.lines(self.root))
        if self.random.random() < 0.5:
            lines = ["Scope (\\) {", *lines, "}"]
        return "\n".join(['DefinitionBlock ("", "DSDT", 2, "FOOBAR", "CAFEDEAD", 1) {', *lines, "}", ""])


def main():
    folder, count = pathlib.Path(sys.argv[1]), int(sys.argv[2])
    for seed in range(count):
        (folder / f"calls{seed}.asl").write_text(Block(seed).text())


main()
