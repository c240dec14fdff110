"""Shared code of the checks that run programs: a run within limits and its outcome, the choice of programs, and the report."""
import os
import resource
import subprocess
import sys
from typing import NamedTuple, Optional

ROOT = os.path.dirname(os.path.dirname(os.path.abspath(__file__)))
# after which a program is ended
SECONDS = 120


class Outcome(NamedTuple):
    status: int
    output: bytes
    error: bytes


class Limits(NamedTuple):
    """The limits of a run: seconds, and bytes of memory and of its stack. None is no bound."""

    seconds: Optional[int] = SECONDS
    memory: Optional[int] = None
    stack: Optional[int] = None

    def hold(self):
        """Applies the limits to the calling process."""
        for kind, bound in ((resource.RLIMIT_AS, self.memory), (resource.RLIMIT_STACK, self.stack)):
            if bound:
                resource.setrlimit(kind, (bound, bound))


def run(program, args, stdin=b'', limits=Limits(), **how):
    """Returns the outcome of a run. Its standard input is bytes or a stream; output to a stream in `how` is no part of the outcome. Raises OSError if
    it can't be started, and subprocess.TimeoutExpired if it takes too long."""
    words = {'stdout': subprocess.PIPE, 'stderr': subprocess.PIPE, 'timeout': limits.seconds}
    words['input' if isinstance(stdin, bytes) else 'stdin'] = stdin
    if limits.memory or limits.stack:
        words['preexec_fn'] = limits.hold
    done = subprocess.run([program, *args], **{**words, **how})
    return Outcome(done.returncode, done.stdout or b'', done.stderr or b'')


def built(name):
    """Returns the path of the proved program of a crate."""
    return os.path.join(ROOT, 'crates', name, 'out', name)


def programs(argv, names=('symq',), missing='%s is not there: `make symq` builds it'):
    """Returns the paths of the programs that a command line names, or those of the proved programs. Ends the process if one doesn't exist."""
    paths = [os.path.abspath(it) for it in argv] or [built(it) for it in names]
    for path in paths:
        if not os.access(path, os.X_OK):
            sys.exit(missing % path)
    return paths


def report(rows):
    """Prints what is wrong, row by row as they come: a name with one or more texts, empty if nothing is. Then prints the counts, and returns the
    status."""
    passed = failed = 0
    for name, wrong in rows:
        texts = [wrong] if isinstance(wrong, str) else wrong
        texts = [it for it in texts if it]
        for text in texts:
            print('%s: %s' % (name, text))
        passed, failed = passed + (not texts), failed + bool(texts)
    return counts(passed, failed)


def counts(passed, failed):
    """Prints the last line, and returns the status."""
    print('%d passed, %d failed' % (passed, failed))
    return 1 if failed else 0
