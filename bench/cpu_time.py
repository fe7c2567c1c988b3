#!/usr/bin/env python3
"""Prints the CPU time of programs in a folder: user and system time of the child, in milliseconds, the best of RUNS runs.

cpu_time.py RUNS FOLDER PROGRAM...

The programs take turns, so that a busy machine is busy for all of them. What they print and say goes to /dev/null.
"""
import os
import sys


def run(program, sheet):
    child = os.posix_spawn(program, [program], os.environ, file_actions=[(os.POSIX_SPAWN_DUP2, sheet, 1), (os.POSIX_SPAWN_DUP2, sheet, 2)])
    _, status, used = os.wait4(child, 0)
    if os.WIFSIGNALED(status):
        sys.exit("%s ended by signal %d" % (program, os.WTERMSIG(status)))
    return used.ru_utime + used.ru_stime


def main():
    if len(sys.argv) < 4:
        sys.exit(__doc__.strip())
    programs = [os.path.abspath(each) for each in sys.argv[3:]]
    os.chdir(sys.argv[2])
    sheet = os.open(os.devnull, os.O_WRONLY)
    rounds = [[run(each, sheet) for each in programs] for _ in range(int(sys.argv[1]))]
    print(*("%.2f" % (1000 * min(times)) for times in zip(*rounds)))


if __name__ == "__main__":
    main()
