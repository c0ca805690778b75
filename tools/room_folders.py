"""Folders for rooms, which are gone when the process that made them is. Each is locked as long as
its process lives, however that ends; one that nobody has locked is left over, and is removed."""
import contextlib
import fcntl
import os
import shutil
import tempfile

from built import TOP

GIT = os.path.join(TOP, '.git')
KINDS = ('crate-', 'edits-')


def lock(path):
    """Opens and locks a folder. Nothing where another holds it, or it isn't there any more."""
    folder = os.open(path, os.O_RDONLY | os.O_DIRECTORY | os.O_NOFOLLOW)
    try:
        fcntl.flock(folder, fcntl.LOCK_EX | fcntl.LOCK_NB)
        if os.path.samestat(os.fstat(folder), os.lstat(path)):
            return folder
    except (BlockingIOError, FileNotFoundError):
        pass
    except OSError:
        os.close(folder)
        raise
    os.close(folder)
    return None


def locked_folder(kind):
    """Makes and locks a folder: on the repository's disk, where files can be linked. One that
    another removes before it is locked is made anew."""
    while True:
        path = tempfile.mkdtemp(prefix=f'{kind}-', dir=GIT if os.path.isdir(GIT) else None)
        try:
            held = lock(path)
        except FileNotFoundError:
            continue
        except OSError:
            # Some file systems have no locks, and nothing is removed there.
            return path, os.open(path, os.O_RDONLY)
        if held is not None:
            return path, held


@contextlib.contextmanager
def new_folder(kind):
    """A folder that is removed in the end."""
    path, held = locked_folder(kind)
    try:
        yield path
    finally:
        shutil.rmtree(path, ignore_errors=True)
        os.close(held)


def folders_in_use():
    """The folders that processes work in, as far as this one may know."""
    for process in filter(str.isdigit, os.listdir('/proc')):
        with contextlib.suppress(OSError):
            yield os.readlink(f'/proc/{process}/cwd')


def clear():
    """Removes the folders that are left over from processes that were killed."""
    if not os.path.isdir(GIT):
        return
    used = [it + '/' for it in folders_in_use()]
    for name in os.listdir(GIT):
        path = os.path.join(GIT, name)
        if not name.startswith(KINDS) or any(it.startswith(path + '/') for it in used):
            continue
        with contextlib.suppress(OSError):
            held = lock(path)
            if held is not None:
                shutil.rmtree(path, ignore_errors=True)
                os.close(held)
