"""How many processors and how much memory there are, within the limits of a control group."""
import contextlib
import os
import re

GROUP = "/sys/fs/cgroup"


def words_in(name):
    """The words of a file of the control group; none where it isn't there."""
    with contextlib.suppress(OSError):
        with open(os.path.join(GROUP, name), encoding="ascii") as file:
            return file.read().split()
    return []


def processors():
    """How many processors there are."""
    found, quota = len(os.sched_getaffinity(0)), words_in("cpu.max")
    if len(quota) == 2 and quota[0].isdigit():
        found = min(found, max(int(quota[0]) // int(quota[1]), 1))
    return found


def name():
    """What the processor calls itself."""
    with contextlib.suppress(OSError):
        with open("/proc/cpuinfo", encoding="utf-8") as file:
            if found := re.search(r"^model name\s*:\s*(.+)$", file.read(), re.M):
                return found[1]
    return os.uname().machine


def free_memory():
    """The free memory in bytes."""
    with open("/proc/meminfo", encoding="ascii") as file:
        free = 1024 * int(re.search(r"MemAvailable:\s+(\d+)", file.read())[1])
    limit, used = words_in("memory.max"), words_in("memory.current")
    if limit and used and limit[0].isdigit():
        free = min(free, int(limit[0]) - int(used[0]))
    return free
