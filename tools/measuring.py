"""Runs a built program on a file and measures it, for the benchmarks beside this file."""
import os
import subprocess

from built import program as built


def measure(program, source, target):
    """Seconds of processor time and megabytes of memory at most of `program < source > target`."""
    with open(source, 'rb') as i, open(target, 'wb') as o:
        child = subprocess.Popen([built(program)], stdin=i, stdout=o)
        _, status, usage = os.wait4(child.pid, 0)
    assert status == 0, program
    return usage.ru_utime + usage.ru_stime, usage.ru_maxrss / 1024
