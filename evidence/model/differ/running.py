"""Compares the result of a program for a graph and lines with that of the model."""
import os
import subprocess
import tempfile
from functools import lru_cache
from typing import NamedTuple

from rules.answers import run


class Result(NamedTuple):
    status: 'int | str'
    output: bytes
    error: bytes


class Difference(NamedTuple):
    """A difference in `what`: 'status', 'output' or 'error'."""
    what: str
    program: Result
    model: Result


STRICT = '--strict'
NO_STRICT_RULES = 'the program has no strict rules: with --strict it ends with status 2'


@lru_cache(maxsize=1024)
def of_model(graph: bytes, lines: 'tuple[bytes, ...]', strict: bool) -> Result:
    """Returns the result of the model, which is cached, since many programs are compared with it."""
    return Result(*run(graph, lines, strict))


class Program:
    """A program that is run once for each graph, with the lines as its standard input."""

    def __init__(self, command: 'list[str]', seconds=60):
        self.command, self.seconds = command, seconds
        self.folder = tempfile.TemporaryDirectory(prefix='evidence-')
        self.path = os.path.join(self.folder.name, 'graph.json')

    def close(self) -> None:
        self.folder.cleanup()

    def run(self, graph: bytes, lines: 'list[bytes]', strict=False) -> Result:
        with open(self.path, 'wb') as file:
            file.write(graph)
        words = [STRICT, self.path] if strict else [self.path]
        try:
            done = subprocess.run([*self.command, *words], input=b''.join(line + b'\n' for line in lines),
                                  stdout=subprocess.PIPE, stderr=subprocess.PIPE, timeout=self.seconds)
        except subprocess.TimeoutExpired:
            return Result('no end', b'', b'')
        return Result(done.returncode, done.stdout, done.stderr)

    def difference(self, graph: bytes, lines: 'list[bytes]', strict=False) -> 'Difference | None':
        """Returns the difference from the model, byte for byte, by strict rules or by Deno's."""
        theirs, ours = self.run(graph, lines, strict), of_model(graph, tuple(lines), strict)
        if theirs == ours:
            return None
        what = 'status' if theirs.status != ours.status else 'output' if theirs.output != ours.output else 'error'
        return Difference(what, theirs, ours)


def has_strict_rules(command: 'list[str]') -> bool:
    """Returns whether a program accepts the argument for strict rules. One that doesn't ends with the status of a usage error."""
    program = Program(command)
    found = program.run(b'{}', [], True)
    program.close()
    return found.status != 2


def first_difference(lines, theirs: bytes, ours: bytes):
    """Returns the first line with different answers, and both answers; None for a side without the line."""
    answers = [text.split(b'\n') for text in (theirs, ours)]
    for at in range(max(map(len, answers))):
        first, second = (side[at] if at < len(side) else None for side in answers)
        if first != second:
            return (lines[at] if at < len(lines) else None), first, second
    return None
