#!/usr/bin/env python3
"""Tries the recipe of docs/SCALE.md on two simulated machines, with disturbances.

    sudo python3 evidence/scale/trial.py PROGRAM [--graphs 40] [--pause 1] [--only REGEX]

It needs root, and Debian's packages parallel, openssh-server, rsync and iproute2. The machines are network namespaces, each
with an sshd, processes and a home of its own, and are removed at the end. The commands are those of the page, word by word: the
first block as often as needed, then the second.

Graphs are random ones (evidence/model), some of which the program refuses. To leave time for the disturbance, the program gets
its first two lines, and the others after the pause. Each trial begins with nothing. A row has the disturbance, the runs of the
first block, the starts of the program on the machines, the jobs in the joblog and how many of them failed, and the names left
for the second block, with how many are of refused graphs. It also has how many files of answers there are, are missing, are too
many, or differ from those of one run on this machine. The status is 1 if one is missing, too many or different. It takes some ten minutes.
"""
import argparse
import os
import re
import shutil
import signal
import subprocess
import sys
import tempfile
import time

HERE = os.path.dirname(os.path.abspath(__file__))
sys.path.insert(1, os.path.join(HERE, '..', 'model'))
from graphs.cases import case_of_seed  # noqa: E402
from machines import Machine, keys_of, program, wait_for  # noqa: E402

PAGE = os.path.join(HERE, '..', '..', 'docs', 'SCALE.md')
# how often the first block is run at most
RUNS = 6
# how long a link stays cut, or a machine dead: longer than the detection takes
APART = 30


def blocks() -> 'list[str]':
    """Returns the options of the page for ssh, its command that queries all names, and the one that queries the remaining ones."""
    with open(PAGE, encoding='utf-8') as file:
        text = file.read()
    return [re.search(r'^Host .*\n((?:  .*\n)+)', text, re.M)[1], *re.findall(r'^```sh\n(.*?)^```', text, re.M | re.S)[:2]]


def read(path: str) -> bytes:
    with open(path, 'rb') as file:
        return file.read()


def write(path: str, data: bytes) -> None:
    with open(path, 'wb') as file:
        file.write(data)


class Driver:
    """The directory of the dispatching machine, and the answers of one run on this machine."""

    def __init__(self, top: str, symq: str, pause: float, graphs: int):
        self.folder, self.bin = os.path.join(top, 'driver'), os.path.join(top, 'bin')
        self.program = os.path.join(self.bin, 'program')
        for it in (self.at('graphs'), self.at('lines'), self.bin):
            os.makedirs(it)
        shutil.copy2(symq, self.program)
        program(self.at('symq'), '#!/bin/sh\necho "$1" >> ~/started\n{ head -n 2; sleep %g; cat; } | %s "$1"\n' % (
            pause, self.program))
        write(self.at('hosts'), b'2/m1\n2/m2\n')
        self.wanted, self.refused = {}, {}
        for seed in range(graphs):
            self.add('graph-%03d' % seed, case_of_seed(seed, accepted_only=seed % 20 != 19, strict=False))
        self.process = None

    def at(self, *names: str) -> str:
        return os.path.join(self.folder, *names)

    def add(self, name: str, case) -> None:
        lines = b''.join(it + b'\n' for it in case.lines)
        write(self.at('graphs', name + '.json'), case.graph)
        write(self.at('lines', name), lines)
        run = subprocess.run([self.program, self.at('graphs', name + '.json')], input=lines, capture_output=True)
        if run.returncode == 0:
            self.wanted[name] = run.stdout
        else:
            self.refused[name] = run.returncode

    def forget(self) -> None:
        for it in ('joblog', 'joblog.rest', 'names', 'rest'):
            if os.path.exists(self.at(it)):
                os.remove(self.at(it))
        shutil.rmtree(self.at('answers'), ignore_errors=True)

    def start(self, commands: str) -> None:
        env = dict(os.environ, PATH='%s:%s' % (self.bin, os.environ['PATH']), HOME=os.path.join(self.bin, 'home'))
        with open(self.at('log'), 'ab') as log:
            self.process = subprocess.Popen(['sh', '-c', commands], cwd=self.folder, env=env, stdin=subprocess.DEVNULL, stdout=log,
                                            stderr=log, start_new_session=True)

    def is_running(self) -> bool:
        return self.process.poll() is None

    def wait(self, seconds: float = 900) -> int:
        try:
            return self.process.wait(seconds)
        except subprocess.TimeoutExpired:
            self.kill()
            return -1

    def kill(self) -> None:
        """Kills all processes that the commands started here."""
        os.killpg(self.process.pid, signal.SIGKILL)
        self.process.wait()

    def kill_alone(self) -> None:
        """Kills the shell and GNU parallel, so that the jobs that it started go on without it."""
        for it in filter(str.isdecimal, os.listdir('/proc')):
            try:
                words = read('/proc/%s/cmdline' % it).split(b'\0')
                if os.getsid(int(it)) == self.process.pid and any(word.endswith(b'/parallel') for word in words[:2]):
                    os.kill(int(it), signal.SIGKILL)
            except OSError:
                continue
        self.process.wait()

    def answers(self) -> 'list[str]':
        return os.listdir(self.at('answers')) if os.path.isdir(self.at('answers')) else []

    def jobs(self) -> 'list[list[str]]':
        """Returns the lines of the joblog."""
        if not os.path.exists(self.at('joblog')):
            return []
        return [it.split('\t') for it in read(self.at('joblog')).decode().splitlines()[1:]]


class Trial:
    def __init__(self, driver: Driver, machines: 'list[Machine]'):
        self.driver, self.machines, self.told = driver, machines, []

    def until(self, count: int) -> None:
        """Waits until this many answers are there."""
        wait_for(lambda: len(self.driver.answers()) >= count or not self.driver.is_running(), 300)

    def until_busy(self, machine: Machine, count: int) -> 'list[int]':
        """Waits until this many answers are there, and the program runs on the machine. Returns its processes."""
        found = []
        self.until(count)
        wait_for(lambda: found.extend(machine.running(self.driver.program)) or found or not self.driver.is_running())
        return found

    def nothing(self) -> None:
        """nothing"""

    def worker(self) -> None:
        """the program killed on one machine, three times"""
        for count in (3, 6, 9):
            os.kill(self.until_busy(self.machines[0], count)[0], signal.SIGKILL)

    def link(self) -> None:
        """a machine's link cut, and mended"""
        self.until_busy(self.machines[1], 8)
        self.machines[1].cut()
        time.sleep(APART)
        self.machines[1].cut(False)

    def link_at_the_end(self) -> None:
        """a machine's link cut just when a job's answers are fetched, and mended"""
        self.until(8)
        self.machines[1].cut_at_fetch()
        time.sleep(APART)
        self.machines[1].cut(False)

    def machine(self) -> None:
        """a machine dead, and started anew"""
        self.until_busy(self.machines[0], 8)
        self.machines[0].die()
        time.sleep(APART)
        self.machines[0].start()

    def driver_killed(self) -> None:
        """who hands out the work killed, with all that it started here"""
        self.until(12)
        self.driver.kill()

    def driver_alone(self) -> None:
        """GNU parallel killed, and what it started here goes on beside the next run"""
        self.until(12)
        self.driver.kill_alone()

    def everything(self) -> None:
        """the program killed, a link cut, a machine dead, and who hands out the work killed"""
        self.worker()
        self.machines[1].cut()
        time.sleep(5)
        self.machines[0].die()
        time.sleep(5)
        self.driver.kill()
        self.machines[1].cut(False)
        self.machines[0].start()

    def run(self, disturbance) -> str:
        """Runs everything with one disturbance. Returns the row."""
        driver, (_, first, rest) = self.driver, blocks()
        driver.forget()
        for it in self.machines:
            it.wipe()
        driver.start(first)
        disturbance()
        runs = 1
        # refused graphs stay in the joblog as failed, so the command never ends with 0 if there are any
        while driver.wait() != len(driver.refused) and runs < RUNS:
            driver.start(first)
            runs += 1
        jobs = driver.jobs()
        failed = sum(it[6:8] != ['0', '0'] for it in jobs)
        driver.start(first.partition('ls graphs')[0] + rest)
        driver.wait()
        asked = read(driver.at('rest')).decode().split()
        found = {it: read(driver.at('answers', it)) for it in driver.answers()}
        lacking, beyond = driver.wanted.keys() - found, found.keys() - driver.wanted
        differ = [it for it in found.keys() & driver.wanted if found[it] != driver.wanted[it]]
        self.told += [*lacking, *beyond, *differ]
        started = sum(it.started() for it in self.machines)
        return '| %s | %d | %d | %d, %d | %d, %d | %d | %d | %d | %d |' % (
            disturbance.__doc__, runs, started, len(jobs), failed, len(asked), len(driver.refused.keys() & asked), len(found),
            len(lacking), len(beyond), len(differ))


def main() -> int:
    p = argparse.ArgumentParser(description=__doc__, formatter_class=argparse.RawDescriptionHelpFormatter)
    p.add_argument('program', type=os.path.abspath)
    p.add_argument('--graphs', type=int, default=40)
    p.add_argument('--pause', type=float, default=1)
    p.add_argument('--only', metavar='REGEX', default='', help='of the disturbances those with such words')
    p.add_argument('--keep', action='store_true', help='keep the files, and tell where they are')
    a = p.parse_args()
    if os.geteuid() != 0:
        p.error('network namespaces need root')
    lacking = [it for it in ('parallel', 'ssh', 'ssh-keygen', 'rsync', 'ip', 'unshare', '/usr/sbin/sshd') if not shutil.which(it)]
    if lacking:
        p.error('not here: %s' % ', '.join(lacking))
    # so that the machines are removed if it is told to end
    signal.signal(signal.SIGTERM, lambda number, _: sys.exit(128 + number))
    top = tempfile.mkdtemp(prefix='symq-scale-')
    driver = Driver(top, a.program, a.pause, a.graphs)
    machines = [Machine('m%d' % it, it, top, driver.folder) for it in (1, 2)]
    trial = Trial(driver, machines)
    try:
        keys_of(top, machines, blocks()[0])
        for it in machines:
            it.plug_in()
            it.start()
        print('%d graphs, of which %d are refused' % (a.graphs, len(driver.refused)))
        print('| disturbed by | runs | started | jobs, failed | asked again, refused | answers | lack | too many | differ |\n|' + '---|' * 9)
        for it in (trial.nothing, trial.worker, trial.link, trial.link_at_the_end, trial.machine, trial.driver_killed,
                   trial.driver_alone, trial.everything):
            if re.search(a.only, it.__doc__):
                print(trial.run(it), flush=True)
    finally:
        if driver.process and driver.is_running():
            driver.kill()
        for it in machines:
            it.take_away()
        if a.keep:
            print(top)
        else:
            shutil.rmtree(top)
    return 1 if trial.told else 0


if __name__ == '__main__':
    sys.exit(main())
