"""Commands that end where the process ends that started them."""
import os
import signal
import subprocess
import threading

# The signals that end a command.
SIGNALS = (signal.SIGINT, signal.SIGTERM, signal.SIGHUP)

# The commands that run, each in a process group of its own, and the signal that came. A command is
# started and noted in one, so that no signal comes between: threads start them.
RUNNING = set()
ENDING = []
STARTING = threading.RLock()


class Ended(Exception):
    """A signal came, and has ended all commands."""


def end(process):
    """Ends a command and all that it started."""
    try:
        os.killpg(process.pid, signal.SIGKILL)
    except ProcessLookupError:
        pass


def end_all(number, _):
    """Ends all commands, and this process by what is raised. Further signals don't stop what is
    cleared up then: a whole process group may get one, and who waits may end by it."""
    for it in SIGNALS:
        signal.signal(it, signal.SIG_IGN)
    with STARTING:
        ENDING.append(number)
    for process in list(RUNNING):
        end(process)
    raise Ended(number)


def end_with_signals():
    """Has a signal end all commands. One that was ignored from the start stays so."""
    for number in SIGNALS:
        if signal.getsignal(number) != signal.SIG_IGN:
            signal.signal(number, end_all)


def end_with_reader(stream=1):
    """Has this process end where nobody can read any more what it writes to a pipe: who started it
    is gone. Nothing happens where the stream is no pipe."""
    def watch():
        import select
        waits = select.poll()
        waits.register(stream, 0)
        if any(what & select.POLLERR for _, what in waits.poll()):
            os.kill(os.getpid(), signal.SIGTERM)

    threading.Thread(target=watch, daemon=True).start()


def start(words, folder, **more):
    """Starts a command and notes it, where no signal has come."""
    streams = {'stdin': subprocess.DEVNULL, 'stdout': subprocess.PIPE, 'stderr': subprocess.PIPE}
    with STARTING:
        if ENDING:
            raise Ended(ENDING[0])
        process = subprocess.Popen(words, cwd=folder, start_new_session=True, encoding='utf-8',
                                   errors='replace', **{**streams, **more})
        RUNNING.add(process)
    return process


def run(words, folder, **more):
    """Runs a command to its end. Gives its status, what it printed, and its standard error."""
    with start(words, folder, **more) as process:
        try:
            said, errors = process.communicate()
        finally:
            RUNNING.discard(process)
    return process.returncode, said, errors
