"""Compares files with what the table generates."""
import difflib
import os
from dataclasses import dataclass, field

from .places import compared_with, regions_of
from .regions import NotFound
from .table import table_of

TABLE = 'tools/kinds/kinds.txt'


@dataclass
class File:
    """A file: its lines, the generated lines, how many of its lines are generated, and which parts passed and failed."""

    name: str
    lines: list
    made: list
    follow: int = 0
    passed: list = field(default_factory=list)
    failed: list = field(default_factory=list)
    faults: list = field(default_factory=list)

    def fail(self, name, fault):
        self.failed.append(name)
        self.faults.append('%s: %s: %s' % (self.name, name, fault))

    def said(self):
        """Returns the report on the file, as lines: how much is generated, and what differs."""
        names = (self.name, self.name + ', as the table makes it')
        follows = '%s: %d of %d lines follow from the table' % (self.name, self.follow, len(self.lines) - 1)
        return [follows, *difflib.unified_diff(self.lines, self.made, *names, lineterm=''), *self.faults]


def read(top, name):
    """Returns the text of a file with its line ends as they are; None if it doesn't exist."""
    try:
        with open(os.path.join(top, name), encoding='utf-8', newline='') as f:
            return f.read()
    except FileNotFoundError:
        return ''


def places_of(file, regions):
    """Returns the parts in the file, each with the numbers of its first line and of the line after its last, from the last to the first."""
    places, above = [], len(file.lines)
    for region in regions:
        try:
            places.append((*region.found(file.lines), region))
        except NotFound as fault:
            file.fail(region.name, fault)
    found = []
    for begin, end, region in sorted(places, key=lambda it: it[:2], reverse=True):
        if end > above:
            file.fail(region.name, 'ends in a part behind it')
        else:
            found.append((begin, end, region))
            above = begin
    return found


def file_of(top, name, regions):
    """Returns a file with what the table generates for it."""
    lines = read(top, name).split('\n')
    file = File(name, lines, list(lines))
    for begin, end, region in places_of(file, regions):
        stands, made = lines[begin:end], region.made(lines[begin:end])
        file.made[begin:end] = made
        # what follows the last line end is no line
        file.follow += min(end, len(lines) - 1) - begin
        if made == stands:
            file.passed.append(region.name)
        else:
            file.fail(region.name, 'differs')
    return file


def files_of(top, table):
    """Returns all files with generated parts."""
    regions = regions_of(table)
    names = sorted({it.file for it in regions})
    return [file_of(top, name, [it for it in regions if it.file == name]) for name in names]


def differences(top, table):
    """Returns the parts that are compared and not written, each with where it differs."""
    return [['%s: %s: %s' % (it.file, it.name, fault) for fault in it.differences(read(top, it.file))] for it in compared_with(table)]


def write(top, table):
    """Writes the files as the table generates them."""
    for file in files_of(top, table):
        if file.made != file.lines:
            with open(os.path.join(top, file.name), 'w', encoding='utf-8', newline='') as f:
                f.write('\n'.join(file.made))


def report(top, writes=False):
    """Returns the report on a repository, as lines, and how many parts passed and failed. Writes the files before, if that is wanted."""
    table = table_of(read(top, TABLE))
    if writes:
        write(top, table)
    files, others = files_of(top, table), differences(top, table)
    lines = [line for file in files for line in file.said()] + [line for it in others for line in it]
    lines.append('%d of %d lines follow' % (sum(it.follow for it in files), sum(len(it.lines) - 1 for it in files)))
    passed = sum(len(it.passed) for it in files) + others.count([])
    failed = sum(len(it.failed) for it in files) + len(others) - others.count([])
    return lines, passed, failed
