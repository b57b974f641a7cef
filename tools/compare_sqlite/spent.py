"""Prints to standard error what a command has taken: seconds of the processor, and bytes at its peak.

    sh -c '"$@"; exec python3 spent.py $?' sh COMMAND..

A process that begins a command leaves its own memory in the command's peak, and a shell holds little. So a shell runs
the command, and then becomes this program, whose child it thus was, and which ends with its status.
"""
import resource
import sys

used = resource.getrusage(resource.RUSAGE_CHILDREN)
print(used.ru_utime + used.ru_stime, used.ru_maxrss * 1024, file=sys.stderr)
sys.exit(int(sys.argv[1]))
