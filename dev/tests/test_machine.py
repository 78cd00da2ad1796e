"""Tests that the gate and builds heed the limits of control groups, in directories that look like /proc and /sys."""
import os
import unittest

from dev.build import machine
from dev.testing import TestCase

GB = 1_000_000_000
MEMORY = {"proc/meminfo": f"MemTotal:       64000000 kB\nMemAvailable:   {32 * GB // 1024} kB\n"}
IN_GROUP = {"proc/self/cgroup": "0::/one/two\n"}
IN_OLD_GROUP = {"proc/self/cgroup": "5:cpuset:/\n4:memory:/one\n3:cpu,cpuacct:/one\n"}
# Each machine: its files, and its free memory in GB.
FREE = {
    "no control groups": ({}, 32),
    "a group without a limit": (IN_GROUP | {"sys/fs/cgroup/one/two/memory.max": "max\n",
                                            "sys/fs/cgroup/one/two/memory.current": "5\n"}, 32),
    "a group with a limit": (IN_GROUP | {"sys/fs/cgroup/one/two/memory.max": f"{8 * GB}\n",
                                         "sys/fs/cgroup/one/two/memory.current": f"{3 * GB}\n"}, 5),
    "a limit of the group above": (IN_GROUP | {"sys/fs/cgroup/one/memory.max": f"{8 * GB}\n",
                                               "sys/fs/cgroup/one/memory.current": f"{2 * GB}\n"}, 6),
    "a container, whose group is the top": ({"proc/self/cgroup": "0::/\n", "sys/fs/cgroup/memory.max": f"{8 * GB}\n",
                                             "sys/fs/cgroup/memory.current": f"{GB}\n"}, 7),
    "a group whose memory is mostly files that it read": (
        IN_GROUP | {"sys/fs/cgroup/one/two/memory.max": f"{8 * GB}\n", "sys/fs/cgroup/one/two/memory.current": f"{7 * GB}\n",
                    "sys/fs/cgroup/one/two/memory.stat": f"anon {GB}\ninactive_file {4 * GB}\nactive_file {2 * GB}\n"}, 7),
    "a limit that is larger than the machine": (IN_GROUP | {"sys/fs/cgroup/one/two/memory.max": f"{99 * GB}\n",
                                                            "sys/fs/cgroup/one/two/memory.current": "0\n"}, 32),
    "a group that has used all": (IN_GROUP | {"sys/fs/cgroup/one/two/memory.max": f"{GB}\n",
                                              "sys/fs/cgroup/one/two/memory.current": f"{2 * GB}\n"}, 0),
    "version 1": (IN_OLD_GROUP | {"sys/fs/cgroup/memory/one/memory.limit_in_bytes": f"{8 * GB}\n",
                                  "sys/fs/cgroup/memory/one/memory.usage_in_bytes": f"{6 * GB}\n",
                                  "sys/fs/cgroup/memory/one/memory.stat": f"total_inactive_file {GB}\n"}, 3),
    "version 1 in a container, which doesn't have the path that the kernel names": (
        IN_OLD_GROUP | {"sys/fs/cgroup/memory/memory.limit_in_bytes": f"{8 * GB}\n",
                        "sys/fs/cgroup/memory/memory.usage_in_bytes": f"{6 * GB}\n"}, 2),
}
# Each machine: its files, and how many processors its groups give at most.
QUOTAS = {
    "no control groups": ({}, None),
    "no quota": (IN_GROUP | {"sys/fs/cgroup/one/two/cpu.max": "max 100000\n"}, None),
    "two processors": (IN_GROUP | {"sys/fs/cgroup/one/two/cpu.max": "200000 100000\n"}, 2),
    "a part of a processor": (IN_GROUP | {"sys/fs/cgroup/one/two/cpu.max": "50000 100000\n"}, 1),
    "one and a half, by the group above": (IN_GROUP | {"sys/fs/cgroup/one/cpu.max": "150000 100000\n"}, 2),
    "version 1": (IN_OLD_GROUP | {"sys/fs/cgroup/cpu/one/cpu.cfs_quota_us": "300000\n",
                                  "sys/fs/cgroup/cpu/one/cpu.cfs_period_us": "100000\n"}, 3),
    "version 1 without a quota": (IN_OLD_GROUP | {"sys/fs/cgroup/cpu/one/cpu.cfs_quota_us": "-1\n",
                                                  "sys/fs/cgroup/cpu/one/cpu.cfs_period_us": "100000\n"}, None),
}


class Machine(TestCase):
    def root(self, name, files):
        """Returns a directory with these files and those of every machine."""
        self.write({f"{name}/{path}": text for path, text in (MEMORY | files).items()})
        return self.folder / name

    # Catches a gate that starts as many provers in a container as fit into the whole machine.
    def test_free_memory(self):
        for name, (files, free) in FREE.items():
            with self.subTest(name):
                self.assertEqual(round(machine.free_memory(self.root(name, files)) / GB), free)

    def test_quota_of_processors(self):
        for name, (files, most) in QUOTAS.items():
            with self.subTest(name):
                self.assertEqual(machine.quota(self.root(name, files)), most)

    def test_processors(self):
        self.assertEqual(machine.processors(self.root("one", QUOTAS["a part of a processor"][0])), 1)
        self.assertEqual(machine.processors(self.root("none", {})), len(os.sched_getaffinity(0)))

    def test_provers(self):
        for name in ("a group with a limit", "a group that has used all"):
            with self.subTest(name):
                self.assertEqual(machine.provers(self.root(name, FREE[name][0])), 1)
        root = self.root("large", {"proc/meminfo": "MemAvailable:   999000000000 kB\n"})
        self.assertEqual(machine.provers(root), machine.processors(root))

    def test_this_machine(self):
        self.assertGreater(machine.free_memory(), 0)
        self.assertGreater(machine.provers(), 0)


if __name__ == "__main__":
    unittest.main()
