"""Copies of a crate in which edits are checked, with the contracts alone of all other functions."""
import fcntl
import os
import re
import shutil
import subprocess
import sys
import threading
import time
from contextlib import contextmanager

from .crates import Edit, by_hand, libraries_below, write

# the peak memory of a check in bytes, as far as observed
MEMORY = 4_000_000_000
SIGNATURE = re.compile(r'(?:pub |abbrev |unfoldable )*([^\s:=(){}\[\],|]+) :')
# the files of a function's proof
OF_FUNCTIONS = ('Answers.antt', 'Invariants.antt', 'Proof.antt')
# the name of an answer to no goal
TO_NO_GOAL = 'to-no-goal'


def words_of(crate, kit_folder, built):
    """Returns the arguments of a check of the crate, over the built libraries of a directory, or those in their out/."""
    own = libraries_below(crate.name, crate.libraries)
    below = [it for it in crate.libraries[crate.name] if it not in crate.libraries]
    words = [os.path.join(kit_folder, 'bin', 'rattle'), 'check', '--crate-name', crate.name, 'src/lib.rt']
    for name in ['std', *below]:
        words += ['--extern', '%s=%s/rlibs/%s.rlib' % (name, kit_folder, name)]
    words += ['-L', 'dependency=%s/rlibs' % kit_folder]
    for name in own:
        folder = built or os.path.join(crate.top, 'crates', name, 'out', 'rlib')
        if not os.path.isdir(os.path.join(folder, name + '.rlib')):
            sys.exit('%s: its library %s is not built: run `rt check` in crates/%s first' % (crate.name, name, crate.name))
        if name in crate.libraries[crate.name]:
            words += ['--extern', '%s=%s/%s.rlib' % (name, folder, name)]
        words += ['-L', 'dependency=' + folder]
    words += ['--antt-project', os.path.join(kit_folder, 'rattle', 'logic', 'antt-project.json')]
    return words + ['--logic-built', os.path.join(kit_folder, 'logic_built'), '--jobs', '1', '--allow-holes']


def lanes_here():
    """Returns one lane per processor, as far as memory suffices."""
    with open('/proc/meminfo') as f:
        free = 1024 * int(re.search(r'^MemAvailable:\s+(\d+)', f.read(), re.M)[1])
    return max(1, min(len(os.sched_getaffinity(0)), free // MEMORY))


class Lanes:
    """The number of checks that run at once: one for each file of a directory, each the lock of a lane, shared with other processes. If no directory
    is named, one per processor, as far as memory suffices."""

    def __init__(self, folder=None):
        self.locks = [os.path.join(folder, it) for it in sorted(os.listdir(folder))] if folder else []
        self.own = threading.Semaphore(len(self.locks) or lanes_here())

    @contextmanager
    def taken(self):
        with self.own:
            lock = self.lock()
            try:
                yield
            finally:
                if lock:
                    lock.close()

    def lock(self):
        """Returns a file that is locked until it is closed; None if lanes aren't shared."""
        while self.locks:
            for path in self.locks:
                file = open(path, encoding='utf-8')
                try:
                    fcntl.flock(file, fcntl.LOCK_EX | fcntl.LOCK_NB)
                    return file
                except OSError:
                    file.close()
            time.sleep(0.2)
        return None


def body_of(lines, function):
    """Returns the lines of a function's body: the one that ends in its opening brace, and the one of its closing brace. None if it has no body on
    lines of its own, or if the compiler generates it."""
    head = lines[function.first]
    indent = head[: len(head) - len(head.lstrip())]
    if re.match(r' *(pub(\([a-z]+\))? )?const ', head) or function.last == function.first or lines[function.last] != indent + '}':
        return None
    for at in range(function.first, function.last):
        line = lines[at]
        if line == indent + '{' or line.endswith('{') and (at == function.first or line.startswith(indent + ')')):
            return at, function.last
    return None


def hole(crate, function):
    """Returns a proof file with a hole."""
    statement = '.'.join(['Rattle', crate.name, 'proofs', *function.path, 'Statement'])
    name = function.path[-1] + '_spec'
    return 'use %s.{statement}\n\npub %s : {M : Type 1} → statement M\n%s = ?\n' % (statement, name, name)


def without_answers(text, goals):
    """Returns a file of answers without those to these goals: an answer goes from its signature, at the line's begin, to the next one."""
    kept, is_out = [], False
    for line in text.split('\n'):
        head = SIGNATURE.match(line)
        is_out = head[1] in goals if head else is_out
        if not is_out:
            kept.append(line)
    return '\n'.join(kept)


def proof_folder(function):
    """Returns the directory of a function's proof: a cycle of calls has one for all its functions, a recursion its own."""
    at, name = os.path.split(function.proofs())
    return ['%s/%s/' % (at, name), '%s/+%s/' % (at, function.cycle or name)]


def with_answer_to_no_goal(crate, function, files):
    """Returns the file of answers of a checked function, and its text with an answer to no goal after the others; None if its proof is written as a
    whole. A check that refuses such an answer searches and reports as usual, but doesn't write out answers for open goals, which would take it as
    long as a fifth of the rest."""
    own, shared = proof_folder(function)
    folder = shared if function.cycle or any(it.startswith(shared) for it in files) else own
    if folder + 'Proof.antt' in files:
        return None
    use = 'use Rattle.%s.%sGoals as goal\n' % (crate, folder.replace('/', '.'))
    text = files.get(folder + 'Answers.antt', use)
    answer = '\npub {0} : goal.{0}\n{0} c = ?\n'.format(TO_NO_GOAL)
    return folder + 'Answers.antt', text.rstrip('\n') + '\n' + answer


def without_its_refusal(said):
    """Returns the output of a check without messages on answers to no goal."""
    # a message goes on in indented lines
    texts = re.split(r'\n(?!\s)', said)
    return '\n'.join(it for it in texts if ': error: `%s`' % TO_NO_GOAL not in it.split('\n')[0])


class Room:
    """A copy of a crate in which edits are tried. The caches of checks stay from check to check."""

    def __init__(self, crate, words, folder, lanes):
        self.crate, self.own_words, self.folder, self.lanes = crate, words, folder, lanes
        self.words = [*words, '--incremental', os.path.join(folder, 'kept')]
        self.checks = 0

    def beside(self, name):
        """Returns a room of its own, with the caches of this one so far."""
        room = Room(self.crate, self.own_words, os.path.join(self.folder, name), self.lanes)
        if os.path.isdir(os.path.join(self.folder, 'kept')):
            shutil.copytree(os.path.join(self.folder, 'kept'), os.path.join(room.folder, 'kept'))
        return room

    def may_be_stub(self, function, paths):
        """Returns whether a stub may replace the function: not in an impl of a trait, which a caller may name by the trait, and in a cycle of calls
        only if no function of it is checked."""
        if function.trait or (function.cycle and function.cycle in self.crate.cycles_of_types):
            return False
        cycle = [it for it in self.crate.functions if function.cycle and it.cycle_key() == function.cycle_key()]
        return not any(it.path in paths or it.trait for it in cycle)

    def stubbed(self, file, edits, others):
        """Returns the text of a file with these edits, and with `unreachable!()` for the bodies of the others."""
        lines = self.crate.texts[file].split('\n')
        inside = [(it.function.first, it.function.last) for it in edits if it.function.file == file]
        changes = {it.first: it for it in others if it.file == file and not any(a < it.first <= b for a, b in inside)}
        changes.update({it.function.first: it for it in edits if it.function.file == file})
        for first in sorted(changes, reverse=True):
            if isinstance(changes[first], Edit):
                lines[first : changes[first].function.last + 1] = changes[first].lines
            else:
                self.stub(lines, changes[first])
        text = '\n'.join(lines)
        for impl in [it.impl for it in edits if it.impl and it.function.file == file]:
            text = by_hand(text, impl)
        return text

    @staticmethod
    def stub(lines, function):
        """Replaces a function by a stub, which is in no cycle."""
        found = body_of(lines, function)
        if found:
            lines[found[0] + 1 : found[1]] = [lines[function.last][:-1] + '    unreachable!()']
        above = function.first - 1
        while function.cycle and above >= 0 and re.match(r' *(#\[|///)', lines[above]):
            if re.match(r' *#\[cycle\(%s\)\]' % function.cycle, lines[above]):
                del lines[above]
            above -= 1

    def laid(self, edits, asked, dropped=()):
        """Returns the crate's files with these edits, each with its text. Each function that isn't checked has `unreachable!()` for its body and a
        hole for its proof: only its contract is read. Dropped answers, each a function and the name of a goal, are left out."""
        paths = {it.path for it in asked}
        others = [it for it in self.crate.functions if it.path not in paths and self.may_be_stub(it, paths)]
        found = {file: self.stubbed(file, edits, others) for file in self.crate.texts}
        found.update(self.crate.other_files())
        # what belonged to a removed body: the proof of the function, of its recursion or its cycle, and those of its closures
        gone = []
        for it in others:
            at, name = os.path.split(it.proofs())
            gone += [it.proofs() + '/' + file for file in OF_FUNCTIONS]
            gone += ['%s/+%s/' % (at, name), '%s/+%s/' % (at, it.cycle or name), '%s/fn/%s/' % (at, name), '%s/fn/%s/%s/' % (*os.path.split(at), name)]
        gone = tuple(gone)
        found = {path: text for path, text in found.items() if not path.startswith(gone)}
        for function in {it for it, _ in dropped}:
            goals = {goal for it, goal in dropped if it == function}
            for path in [folder + 'Answers.antt' for folder in proof_folder(function)]:
                if path in found:
                    found[path] = without_answers(found[path], goals)
        found.update({it.proofs() + '/Proof.antt': hole(self.crate, it) for it in others})
        return found

    def lay(self, edits, asked, dropped, is_whole):
        """Writes the crate with these edits, with an answer to no goal for each checked function unless the check is to be whole."""
        room, found = os.path.join(self.folder, 'crate'), self.laid(edits, asked, dropped)
        if not is_whole:
            found = {**found, **dict(filter(None, (with_answer_to_no_goal(self.crate.name, it, found) for it in asked)))}
        shutil.rmtree(room, ignore_errors=True)
        for path, text in found.items():
            write(os.path.join(room, path), text)
        return room

    def check(self, edits, asked, dropped=(), is_whole=False):
        """Returns the output of a check with these edits on the checked functions. Unless it is whole, it reports none as proved."""
        room = self.lay(edits, asked, dropped, is_whole)
        only = [word for it in asked for word in ('--only', it.name())]
        how = {'cwd': room, 'stdin': subprocess.DEVNULL, 'stdout': subprocess.PIPE, 'stderr': subprocess.STDOUT}
        self.checks += 1
        with self.lanes.taken():
            said = subprocess.run([*self.words, *only], text=True, errors='replace', **how).stdout
        return without_its_refusal(said)
