"""What a process may use of this machine: its processors, its free memory, and the number of provers that fit. A limit of a
control group, such as a container's, counts as well as the machine's own size."""
import os
import pathlib

PROVER = 4_000_000_000  # the bytes that a prover needs at most
# In each group's directory: its limit of memory, what it uses, and what of this the kernel can take back. The first row is of
# version 2, the second of version 1, whose groups are below a directory for each kind.
MEMORY = (("", "memory.max", "memory.current", ("inactive_file", "active_file")),
          ("memory", "memory.limit_in_bytes", "memory.usage_in_bytes", ("total_inactive_file", "total_active_file")))


def groups(root, kind):
    """Returns the directories of the control groups of this process for a kind, with those above. If the directory that the
    kernel names isn't there, which is so in containers, that of the container's own group is at the top."""
    top = root / "sys/fs/cgroup" / kind
    try:
        rows = [line.split(":", 2) for line in (root / "proc/self/cgroup").read_text().splitlines()]
    except OSError:
        rows = []
    paths = {top / path.lstrip("/") for _, kinds, path in rows if kind in kinds.split(",")}
    return {top} | {group for path in paths for group in (path, *path.parents) if group.is_relative_to(top)}


def number(file):
    """Returns the number in a file, or None if it isn't there or says that there is no limit."""
    try:
        return int(file.read_text())
    except (OSError, ValueError):
        return None


def statistics(file):
    """Returns the numbers of a file whose lines have the form NAME NUMBER, by their names."""
    try:
        return {name: int(value) for name, value in map(str.split, file.read_text().splitlines())}
    except (OSError, ValueError):
        return {}


def free_memory(root="/"):
    """Returns the bytes of memory that are free: the machine's, or less if a control group has less left."""
    root = pathlib.Path(root)
    [available] = [line.split()[1] for line in (root / "proc/meminfo").read_text().splitlines() if line.startswith("MemAvailable")]
    free = [int(available) * 1024]
    for kind, limit_name, used_name, cached_names in MEMORY:
        for group in groups(root, kind):
            limit, used = number(group / limit_name), number(group / used_name)
            if limit is not None and used is not None:
                kept = statistics(group / "memory.stat")
                free.append(limit - used + sum(kept.get(name, 0) for name in cached_names))
    return max(0, min(free))


def quota(root):
    """Returns the least number of processors that a control group gives, rounded up, or None without a limit."""
    found = []
    for group in groups(root, ""):
        try:
            found.append([int(word) for word in (group / "cpu.max").read_text().split()])
        except (OSError, ValueError):
            pass
    found += [[number(group / "cpu.cfs_quota_us"), number(group / "cpu.cfs_period_us")] for group in groups(root, "cpu")]
    return min((-(-most // period) for most, period in found if most and period and most > 0), default=None)


def processors(root="/"):
    """Returns the number of processors that this process may use."""
    own = len(os.sched_getaffinity(0))
    return min(own, quota(pathlib.Path(root)) or own)


def provers(root="/"):
    """Returns the number of provers that can run at once: one for each processor, with memory for each; at least 1."""
    return max(1, min(processors(root), free_memory(root) // PROVER))
