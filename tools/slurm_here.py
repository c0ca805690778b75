"""A Slurm of two nodes on this machine: munged, slurmctld and two slurmd on the loopback, with a
configuration, keys, ports and logs of their own in one folder. They are ended with their jobs."""
from __future__ import annotations

import os
import pwd
import secrets
import shutil
import socket
import subprocess
import time
from contextlib import ExitStack, contextmanager
from typing import Callable, Iterator

from hanging import HANGS

NODES = ('one', 'two')
PROGRAMS = ('munged', 'slurmctld', 'slurmd', 'sbatch', 'scontrol', 'scancel', 'sinfo', 'squeue')
# Debian has the daemons in folders that aren't in the PATH of everybody.
PATH = os.pathsep.join((os.environ.get('PATH', ''), '/usr/sbin', '/sbin'))
# Seconds that a daemon may take to end before it is killed.
PATIENCE = 30

CONFIGURATION = '''ClusterName=farm
SlurmctldHost={host}(127.0.0.1)
SlurmctldPort={ports[0]}
SlurmUser={user}
SlurmdUser={user}
AuthType=auth/munge
AuthInfo=socket={folder}/munge/socket
CredType=cred/munge
StateSaveLocation={folder}/state
SlurmdSpoolDir={folder}/spool-%n
SlurmctldPidFile={folder}/slurmctld.pid
SlurmdPidFile={folder}/slurmd-%n.pid
SlurmctldLogFile={folder}/slurmctld.log
SlurmdLogFile={folder}/slurmd-%n.log
ProctrackType=proctrack/linuxproc
TaskPlugin=task/none
SelectType=select/cons_tres
SelectTypeParameters=CR_Core
SchedulerParameters=sched_interval=1,sched_min_interval=0
SwitchType=switch/none
MpiDefault=none
JobAcctGatherType=jobacct_gather/none
AccountingStorageType=accounting_storage/none
PropagateResourceLimits=NONE
ReturnToService=2
KillWait=2
NodeName=one NodeHostname={host} NodeAddr=127.0.0.1 Port={ports[1]} CPUs={cpus} State=UNKNOWN
NodeName=two NodeHostname={host} NodeAddr=127.0.0.1 Port={ports[2]} CPUs={cpus} State=UNKNOWN
PartitionName=all Nodes=one,two Default=YES MaxTime=INFINITE State=UP
'''


def missing() -> list[str]:
    """The programs that aren't there."""
    return [it for it in PROGRAMS if shutil.which(it, path=PATH) is None]


def free_ports(count: int) -> list[int]:
    """Ports of the loopback that nobody listens at."""
    ports = []
    with ExitStack() as stack:
        for _ in range(count):
            one = stack.enter_context(socket.socket())
            one.bind(('127.0.0.1', 0))
            ports.append(int(one.getsockname()[1]))
    return ports


@contextmanager
def daemon(words: list[str], environment: dict[str, str], log: str) -> Iterator[int]:
    """Runs a daemon in the foreground. It is ended by its number."""
    with open(log, 'ab') as said:
        process = subprocess.Popen(words, env=environment, stdin=subprocess.DEVNULL, stdout=said,
                                   stderr=said)
    try:
        yield process.pid
    finally:
        process.terminate()
        try:
            process.wait(PATIENCE)
        except subprocess.TimeoutExpired:
            process.kill()
            process.wait()


def wait_for(is_so: Callable[[], bool], what: str) -> None:
    """Waits until something is so."""
    end = time.monotonic() + HANGS
    while not is_so():
        if time.monotonic() > end:
            raise RuntimeError(f'{what} within {HANGS} s')
        time.sleep(0.1)


def prepare(folder: str, processors: int) -> dict[str, str]:
    """Writes the configuration and the key. Gives the environment of what uses this Slurm."""
    for name in ('munge', 'state', *(f'spool-{it}' for it in NODES)):
        os.makedirs(os.path.join(folder, name))
    os.chmod(os.path.join(folder, 'munge'), 0o711)
    key = os.path.join(folder, 'munge', 'key')
    with open(os.open(key, os.O_WRONLY | os.O_CREAT | os.O_EXCL, 0o400), 'wb') as stream:
        stream.write(secrets.token_bytes(128))
    path = os.path.join(folder, 'slurm.conf')
    user = pwd.getpwuid(os.getuid()).pw_name
    with open(path, 'w', encoding='utf-8') as stream:
        stream.write(CONFIGURATION.format(folder=folder, user=user, ports=free_ports(3),
                                          cpus=processors, host=socket.gethostname().split('.')[0]))
    kept = {name: it for name, it in os.environ.items() if not name.startswith('SLURM')}
    return {**kept, 'PATH': PATH, 'SLURM_CONF': path}


def asked(environment: dict[str, str], *words: str) -> list[str]:
    """The words that a command of Slurm prints."""
    return subprocess.run(words, env=environment, stdin=subprocess.DEVNULL, capture_output=True,
                          text=True, check=False).stdout.split()


def end_jobs(environment: dict[str, str]) -> None:
    """Ends all jobs, and waits until they have ended: their processes aren't the daemons' own."""
    asked(environment, 'scancel', f'--user={os.getuid()}')
    wait_for(lambda: not asked(environment, 'squeue', '--noheader'), 'jobs had no end')


@contextmanager
def slurm(folder: str, processors: int = 1) -> Iterator[tuple[dict[str, str], dict[str, int]]]:
    """Runs Slurm in a folder that is new, with so many processors a node. Gives the environment of
    what uses it, and the number of the process of each node."""
    environment = prepare(folder, processors)
    munge = os.path.join(folder, 'munge')
    words = ['munged', '--foreground', '--force', '--num-threads=2']
    words += [f'--{option}={os.path.join(munge, name)}' for option, name in (
        ('socket', 'socket'), ('key-file', 'key'), ('pid-file', 'pid'), ('log-file', 'log'),
        ('seed-file', 'seed'))]

    state = ('sinfo', '--noheader', '--Node', '--format=%T')
    with ExitStack() as stack:
        log = os.path.join(folder, 'daemons.log')
        stack.enter_context(daemon(words, environment, log))
        wait_for(lambda: os.path.exists(os.path.join(munge, 'socket')), 'munged did not begin')
        stack.enter_context(daemon(['slurmctld', '-D'], environment, log))
        pids = {node: stack.enter_context(daemon(['slurmd', '-D', '-N', node], environment, log))
                for node in NODES}
        wait_for(lambda: asked(environment, *state) == ['idle', 'idle'], 'the nodes were not idle')
        stack.callback(end_jobs, environment)
        yield environment, pids
