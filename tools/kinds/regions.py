"""Files, and parts of files, that are generated from the table: where they are, and what generates them."""
from dataclasses import dataclass
from typing import Callable

# the end of a part: before the line that marks its end, or the end of the file
MARKED, END = '<!-- end -->', 'end'


class NotFound(Exception):
    """A part that isn't in its file."""


@dataclass(frozen=True)
class Region:
    """A part of a file: what follows the one line that marks its beginning, which is none for a whole file, up to the line that marks its end. `made`
    generates its lines from the present ones, whose free text it may keep."""

    file: str
    name: str
    first: str
    until: str
    made: Callable

    def found(self, lines):
        """Returns the numbers of the first line and of the line after the last."""
        if self.until == END:
            return 0, len(lines)
        if lines.count(self.first) != 1:
            raise NotFound('%d lines are %s' % (lines.count(self.first), self.first))
        begin = lines.index(self.first) + 1
        if self.until not in lines[begin:]:
            raise NotFound('no line behind it is %s' % self.until)
        return begin, lines.index(self.until, begin)


@dataclass(frozen=True)
class Compared:
    """A part of a file that isn't written: a function returns where it differs, from the file's text."""

    file: str
    name: str
    differences: Callable
