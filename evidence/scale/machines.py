"""Machines for a trial: network namespaces with processes, a home and an sshd of their own, and a link that can be cut."""
import os
import shutil
import signal
import socket
import subprocess
import time

SSHD = '/usr/sbin/sshd'

# ssh; if a file names a link, that is cut when rsync next fetches something from its machine
SSH = '''#!/bin/sh
cut={keys}/cut
if [ -e "$cut" ]; then
    read -r machine link < "$cut"
    case "$*" in
    "$machine "*--sender* | *" $machine "*--sender*) mv "$cut" "$cut.done" && ip link set "$link" down ;;
    esac
fi
exec {ssh} -F {keys}/config "$@"
'''


def run(*words: str) -> None:
    subprocess.run(words, check=True)


def wait_for(what, seconds: float = 60, step: float = 0.05) -> bool:
    """Waits and returns whether something became true within this many seconds."""
    end = time.monotonic() + seconds
    while not what():
        if time.monotonic() > end:
            return False
        time.sleep(step)
    return True


class Machine:
    """One machine, reachable by ssh under its name; its home is a directory that stays when it dies."""

    def __init__(self, name: str, number: int, top: str, hidden: str):
        self.name, self.top, self.hidden = name, top, hidden
        self.space, self.link = 'symq-%d-%d' % (number, os.getpid()), 'symq%d-%d' % (number, os.getpid() % 100000)
        self.near, self.far = '10.213.%d.1' % number, '10.213.%d.2' % number
        self.home, self.process = os.path.join(top, name), None
        os.makedirs(self.home)

    def plug_in(self) -> None:
        run('ip', 'netns', 'add', self.space)
        run('ip', 'link', 'add', self.link, 'type', 'veth', 'peer', 'name', 'eth0', 'netns', self.space)
        run('ip', 'addr', 'add', self.near + '/24', 'dev', self.link)
        run('ip', 'link', 'set', self.link, 'up')
        run('ip', '-n', self.space, 'addr', 'add', self.far + '/24', 'dev', 'eth0')
        run('ip', '-n', self.space, 'link', 'set', 'eth0', 'up')
        run('ip', '-n', self.space, 'link', 'set', 'lo', 'up')

    def start(self) -> None:
        """Starts the sshd as the first process of a process namespace; the directory of the dispatching machine is hidden from it."""
        keys = os.path.join(self.top, 'ssh')
        given = ['ListenAddress ' + self.far, 'HostKey %s/host' % keys, 'AuthorizedKeysFile %s/key.pub' % keys, 'StrictModes no',
                 'UsePAM no', 'PermitRootLogin prohibit-password', 'PasswordAuthentication no', 'PidFile none', 'MaxStartups 50']
        with open(os.path.join(keys, self.name), 'w', encoding='utf-8') as file:
            file.write(''.join(it + '\n' for it in given))
        mounts = ('mount --make-rprivate / && mount --bind %s /root && mount -t tmpfs none /run && mkdir /run/sshd'
                  ' && mount -t tmpfs none %s && exec %s -D -f %s/%s') % (self.home, self.hidden, SSHD, keys, self.name)
        self.process = subprocess.Popen(['ip', 'netns', 'exec', self.space, 'unshare', '--mount', '--pid', '--fork', '--kill-child',
                                         '--mount-proc', 'sh', '-c', mounts], stderr=subprocess.DEVNULL)
        if not wait_for(self.answers):
            raise TimeoutError('no sshd on %s' % self.name)

    def answers(self) -> bool:
        try:
            with socket.create_connection((self.far, 22), 1):
                return True
        except OSError:
            return False

    def die(self) -> None:
        """Ends all its processes at once."""
        if self.process:
            self.process.send_signal(signal.SIGKILL)
            self.process.wait()
            self.process = None

    def started(self) -> int:
        """Returns how many starts of a program are recorded in the home."""
        path = os.path.join(self.home, 'started')
        if not os.path.exists(path):
            return 0
        with open(path, 'rb') as file:
            return file.read().count(b'\n')

    def wipe(self) -> None:
        for it in os.listdir(self.home):
            path = os.path.join(self.home, it)
            shutil.rmtree(path) if os.path.isdir(path) else os.remove(path)

    def cut(self, isolated: bool = True) -> None:
        run('ip', 'link', 'set', self.link, 'down' if isolated else 'up')

    def cut_at_fetch(self) -> None:
        """Cuts the link when something is fetched from the machine, and waits for that."""
        asked = os.path.join(self.top, 'ssh', 'cut')
        with open(asked + '.part', 'w', encoding='utf-8') as file:
            file.write('%s %s\n' % (self.name, self.link))
        os.rename(asked + '.part', asked)
        if not wait_for(lambda: os.path.exists(asked + '.done')):
            os.remove(asked)
            raise TimeoutError('nothing is fetched from %s' % self.name)
        os.remove(asked + '.done')

    def space_of_processes(self) -> str:
        children = '/proc/%d/task/%d/children' % (self.process.pid, self.process.pid)
        with open(children, encoding='utf-8') as file:
            return os.readlink('/proc/%s/ns/pid' % file.read().split()[0])

    def running(self, program: str) -> 'list[int]':
        """Returns the machine's processes of a program."""
        space, found = self.space_of_processes(), []
        for it in filter(str.isdecimal, os.listdir('/proc')):
            try:
                if os.readlink('/proc/%s/exe' % it) == program and os.readlink('/proc/%s/ns/pid' % it) == space:
                    found.append(int(it))
            except OSError:
                continue
        return found

    def take_away(self) -> None:
        self.die()
        subprocess.run(['ip', 'link', 'del', self.link], stderr=subprocess.DEVNULL)
        subprocess.run(['ip', 'netns', 'del', self.space], stderr=subprocess.DEVNULL)


def keys_of(top: str, machines: 'list[Machine]', options: str) -> None:
    """Makes keys, and the command `ssh` in the directory `bin`, so that `ssh NAME` reaches each machine with these options."""
    keys, commands = os.path.join(top, 'ssh'), os.path.join(top, 'bin')
    os.makedirs(keys)
    for it in ('key', 'host'):
        run('ssh-keygen', '-q', '-t', 'ed25519', '-N', '', '-f', os.path.join(keys, it))
    with open(os.path.join(keys, 'config'), 'w', encoding='utf-8') as file:
        for it in machines:
            file.write('Host %s\n  HostName %s\n' % (it.name, it.far))
        file.write('Host *\n' + options.replace('~/.ssh/', keys + '/'))
        file.write('  User root\n  IdentityFile %s/key\n  IdentitiesOnly yes\n  UserKnownHostsFile %s/known\n'
                   '  StrictHostKeyChecking accept-new\n  LogLevel ERROR\n' % (keys, keys))
    program(os.path.join(commands, 'ssh'), SSH.format(keys=keys, ssh=shutil.which('ssh')))


def program(path: str, text: str) -> None:
    os.makedirs(os.path.dirname(path), exist_ok=True)
    with open(path, 'w', encoding='utf-8') as file:
        file.write(text)
    os.chmod(path, 0o755)
