"""Processes of this machine, as /proc tells them: what a process has started, and what all of that uses."""
import collections
import os
import signal
import time

PAGE = os.sysconf("SC_PAGE_SIZE")
Row = collections.namedtuple("Row", "parent group memory")


def table():
    """For each process that has not ended: its parent, its group and its bytes of memory."""
    found = {}
    for name in os.listdir("/proc"):
        if not name.isdigit():
            continue
        try:
            with open(f"/proc/{name}/stat", "rb") as stat:
                text = stat.read()
        except OSError:
            continue
        words = text[text.rindex(b")") + 2:].split()
        if words[0] not in (b"Z", b"X"):
            found[int(name)] = Row(int(words[1]), int(words[2]), int(words[21]) * PAGE)
    return found


def below(top, rows):
    """The processes that a process has started, and those that these have started, without itself."""
    children = {}
    for process, row in rows.items():
        children.setdefault(row.parent, []).append(process)
    found, left = [], [top]
    while left:
        these = children.get(left.pop(), [])
        found += these
        left += these
    return found


def send(process, number):
    """Sends a signal to a process that may be gone."""
    try:
        os.kill(process, number)
    except (ProcessLookupError, PermissionError):
        pass


def signal_below(top, number):
    """Sends a signal to all that a process has started, also to what is being started meanwhile: to whole groups, since no
    process of a group can start another one before it has got the signal."""
    sent = {top}
    for _ in range(50):
        rows = table()
        new = [it for it in below(top, rows) if it not in sent]
        if not new:
            return
        for group in {rows[it].group for it in new} - {top, os.getpgrp()}:
            send(-group, number)
        for it in new:
            send(it, number)
        sent.update(new)


def end_below(top, reap=lambda: None, seconds=5):
    """Ends all that a process has started."""
    until = time.monotonic() + seconds
    while time.monotonic() < until:
        signal_below(top, signal.SIGKILL)
        reap()
        if not below(top, table()):
            return
        time.sleep(0.001)


def free_memory():
    """How many bytes of memory can be had."""
    try:
        with open("/proc/meminfo", "rb") as lines:
            for line in lines:
                if line.startswith(b"MemAvailable:"):
                    return int(line.split()[1]) * 1024
    except OSError:
        pass
    return os.sysconf("SC_AVPHYS_PAGES") * PAGE


def processors():
    """How many processors this process may use."""
    return len(os.sched_getaffinity(0))
