"""Processes and what they listen at (Linux, /proc)."""
import collections
import contextlib
import os
import pathlib
import re
import threading
import time

from lib.harness import Wrong

PATIENCE = 300  # seconds after which nothing comes any more: the machine may be slow
LISTENS = "0A"  # the state of a socket that listens, in /proc/net/tcp
TICKS = os.sysconf("SC_CLK_TCK")

# Of a process: its state (`Z` where only its end is to be fetched), its parent, when it began, and
# the processor seconds that it has taken so far.
Stat = collections.namedtuple("Stat", "state parent began seconds")


def pids():
    """The numbers of all processes."""
    return [int(it) for it in os.listdir("/proc") if re.fullmatch("[0-9]+", it)]


def text_of(pid, name):
    """What the system has of a process in a file of this name. It fails where there is none."""
    return pathlib.Path(f"/proc/{pid}/{name}").read_text(encoding="utf-8", errors="replace")


def stat_of(pid):
    """What is said of a process (proc(5), "/proc/pid/stat")."""
    fields = text_of(pid, "stat").rpartition(")")[2].split()
    seconds = (int(fields[11]) + int(fields[12])) / TICKS
    return Stat(fields[0], int(fields[1]), int(fields[19]), seconds)


def stats():
    """What is said of each process that is there."""
    found = {}
    for pid in pids():
        with contextlib.suppress(OSError):
            found[pid] = stat_of(pid)
    return found


def memory_of(pid, name):
    """How many kB of memory of a kind a process has: `VmRSS` what it has, `VmHWM` the most that it
    had, `VmSize` what it may address. None once it has ended."""
    found = re.search(rf"{name}:\s*(\d+) kB", text_of(pid, "status"))
    return int(found[1]) if found else 0


def first_line(process, pattern, patience=PATIENCE):
    """What a pattern finds in the first line that a process prints. If there is none in time, or
    another one, the process is ended."""
    late = threading.Timer(patience, process.kill)
    late.start()
    line = process.stdout.readline()
    late.cancel()
    found = re.fullmatch(pattern, line)
    if not found:
        process.kill()
        process.wait()
        raise Wrong(f"{line!r} is printed first")
    return found


def parents():
    """Each process with its parent."""
    return {pid: it.parent for pid, it in stats().items()}


def descendants(top):
    """A process and those that it started, they started, and so on."""
    found, all_of = {top}, parents()
    while True:
        more = {pid for pid, parent in all_of.items() if parent in found} - found
        if not more:
            return found
        found |= more


def sockets_of(pid):
    """The numbers of the sockets that a process has, as texts."""
    found = set()
    try:
        for file in os.listdir(f"/proc/{pid}/fd"):
            name = os.readlink(f"/proc/{pid}/fd/{file}")
            found |= set(re.findall(r"socket:\[(\d+)\]", name))
    except OSError:
        pass
    return found


def table_of_sockets():
    """Each socket's local and remote port, its state, how many bytes wait to be read, and its
    number (proc(5), "/proc/net/tcp")."""
    for line in pathlib.Path("/proc/net/tcp").read_text(encoding="utf-8").splitlines()[1:]:
        _, local, remote, state, queues, *_, inode = line.split()[:10]
        ports = (int(it.rpartition(":")[2], 16) for it in (local, remote))
        yield *ports, state, int(queues.rpartition(":")[2], 16), inode


def listener_of(port):
    """The process that listens at a port of 127.0.0.1 or of all addresses, if one can be seen."""
    table = table_of_sockets()
    wanted = {it for own, _, state, _, it in table if (own, state) == (port, LISTENS)}
    return next((pid for pid in parents() if wanted & sockets_of(pid)), None)


def wait_until_read(link):
    """Waits until the other side has accepted the connection, and read all that was sent over
    it."""
    ports = (link.getpeername()[1], link.getsockname()[1])
    deadline = time.monotonic() + PATIENCE
    while time.monotonic() < deadline:
        sides = [found for found in table_of_sockets() if found[:2] == ports]
        if any(waiting == 0 and inode != "0" for *_, waiting, inode in sides):
            return
        time.sleep(0.01)
    raise OSError("a connection isn't read")
