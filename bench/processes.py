"""Runs a program over a file and takes its time and memory."""
import os
import resource
import subprocess
import time


def once(command, path, out, limit, answers=(0,)):
    """Wall seconds, processor seconds (user and system, all threads) and peak bytes of one run from the file `path` to the
    file `out`, or none where it took more than `limit` processor seconds or ended in none of the statuses `answers`."""
    with open(path, "rb") as file, open(out, "wb") as text:
        begin = time.monotonic()
        child = subprocess.Popen(command, stdin=file, stdout=text, stderr=subprocess.DEVNULL,
                                 preexec_fn=lambda: resource.setrlimit(resource.RLIMIT_CPU, (limit, limit)))
        _, status, usage = os.wait4(child.pid, 0)
        child.returncode = status
        wall = time.monotonic() - begin
    return (wall, usage.ru_utime + usage.ru_stime, usage.ru_maxrss * 1024) if os.waitstatus_to_exitcode(status) in answers else None


def entries_of(path):
    """How many entries a file of the bench has."""
    with open(path, "rb") as file:
        file.readline()
        return int(file.readline().split()[2])
