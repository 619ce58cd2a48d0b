"""Temporary folders, in memory if possible. They are removed when the script ends, also if a signal ends it, and then the processes that
the script started end, too."""
import contextlib
import os
import shutil
import signal
import tempfile
import time

MEMORY, DISK = "/dev/shm", "/tmp"
# bytes that have to be free in memory
ENOUGH = 1 << 30
SIGNALS = (signal.SIGHUP, signal.SIGINT, signal.SIGTERM)
# seconds that processes have to end after a signal
PATIENCE = 3


def fits(folder):
    """Returns whether files can be written and run in the folder, and enough is free."""
    if not os.path.isdir(folder) or not os.access(folder, os.W_OK):
        return False
    said = os.statvfs(folder)
    return not said.f_flag & os.ST_NOEXEC and said.f_bavail * said.f_frsize >= ENOUGH


def folder_of_rooms():
    """Returns the folder in which temporary folders are made: $TMPDIR if it is set, else memory if it fits, else the disk."""
    return os.path.abspath(os.environ.get("TMPDIR") or (MEMORY if fits(MEMORY) else DISK))


def parent_of(process):
    """Returns the parent of a process, or nothing if the process has ended."""
    try:
        with open(f"/proc/{process}/stat", encoding="utf-8", errors="replace") as file:
            state, parent = file.read().rpartition(")")[2].split()[:2]
    except OSError:
        return None
    return None if state == "Z" else int(parent)


def started():
    """Returns the processes that this one started, and those that they started."""
    parents = {int(it): parent_of(it) for it in os.listdir("/proc") if it.isdigit()}
    found, more = set(), {os.getpid()}
    while more:
        more = {it for it, parent in parents.items() if parent in more}
        found |= more
    return found


def end_started():
    """Ends all processes that this one started, and waits a moment for them, since they may have folders of their own to remove."""
    for process in started():
        with contextlib.suppress(OSError):
            os.kill(process, signal.SIGTERM)
    until = time.monotonic() + PATIENCE
    while started() and time.monotonic() < until:
        time.sleep(0.05)


def end(number, _frame):
    """Ends what the script started, and the script, with the status that a shell gives to a program that this signal ended."""
    end_started()
    raise SystemExit(128 + number)


def end_on_signals():
    """Makes HUP, INT and TERM end the script by an exception, after what it started, so that it removes what it made. A signal that is
    ignored stays so."""
    for number in SIGNALS:
        if signal.getsignal(number) is not signal.SIG_IGN:
            signal.signal(number, end)


def remove(path):
    """Removes a folder. A process that a signal ends may still write into it for a moment, so it is tried twice."""
    try:
        shutil.rmtree(path)
    except OSError:
        time.sleep(1)
        shutil.rmtree(path)


@contextlib.contextmanager
def room(prefix, folder=None):
    """Makes a temporary folder, yields its path, and removes it at the end, on HUP, INT and TERM too. It lies in the folder that is named,
    or else where all of them lie."""
    end_on_signals()
    path = None
    try:
        path = tempfile.mkdtemp(prefix=prefix, dir=folder or folder_of_rooms())
        yield path
    except SystemExit:
        # (a thread may have started something after the signal came)
        end_started()
        raise
    finally:
        handlers = {number: signal.signal(number, signal.SIG_IGN) for number in SIGNALS}
        if path is not None:
            remove(path)
        for number, handler in handlers.items():
            signal.signal(number, handler)
