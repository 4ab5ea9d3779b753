"""What one run of a command over a file costs: processor time and memory, or instructions."""
import os
import re
import subprocess
import typing

# Valgrind's count of instructions, without a simulation of caches: the same on each machine.
COUNTING = ['valgrind', '--tool=cachegrind', '--cache-sim=no', '--cachegrind-out-file=/dev/null']


class Cost(typing.NamedTuple):
    seconds: float  # of the processor, for the program and for the system
    mebibytes: float  # at the peak
    faults: int  # of pages, which needed no disk
    status: int


def measured(words, path, sink=os.devnull):
    """Runs words with the file at path as input; what it prints goes to the file sink."""
    with open(path, 'rb') as source, open(sink, 'wb') as to:
        child = subprocess.Popen(words, stdin=source, stdout=to)
        _, status, usage = os.wait4(child.pid, 0)
        child.returncode = os.waitstatus_to_exitcode(status)
    return Cost(usage.ru_utime + usage.ru_stime, usage.ru_maxrss / 1024, usage.ru_minflt, child.returncode)


def instructions(words, path, sink=os.devnull):
    """How many instructions the same run has."""
    with open(path, 'rb') as source, open(sink, 'wb') as to:
        said = subprocess.run(COUNTING + words, stdin=source, stdout=to, stderr=subprocess.PIPE, check=False).stderr.decode()
    return int(re.search(r'I +refs: +([\d,]+)', said)[1].replace(',', ''))
