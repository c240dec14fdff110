"""Arguments of commands."""
import argparse
import os
import shlex
import shutil


def seeds_of(text: str) -> range:
    """Returns the seeds from A to before B, for the argument `A..B`."""
    first, mark, last = text.partition('..')
    if not mark or not first.isdecimal() or not last.isdecimal():
        raise argparse.ArgumentTypeError('seeds are said as 0..1000')
    return range(int(first), int(last))


def command_of(text: str) -> 'list[str]':
    """Returns the words of a program; those that name a file are made valid in any directory."""
    words = [os.path.abspath(word) if os.path.exists(word) else word for word in shlex.split(text)]
    if not words or not shutil.which(words[0]):
        raise argparse.ArgumentTypeError('there is no program %s' % text)
    return words
