#!/usr/bin/env python3
"""Counts the instructions of each operation with callgrind:

    bench/instructions.py PROGRAM

PROGRAM, which bench/run builds, is told to do a thing N times and 2N times. The difference is divided by N, so that
what comes before and after does not count. The rows printed are like PROGRAM's own.
"""

import concurrent.futures
import os
import re
import subprocess
import sys

# N is such that about this many bytes are gone through.
BYTES = 200_000


def counted(program, side, operation, number, times):
    command = ['valgrind', '--tool=callgrind', '--callgrind-out-file=/dev/null', program]
    said = subprocess.run([*command, 'repeat', side, operation, number, str(times)],
                          stderr=subprocess.PIPE, text=True, check=True).stderr
    return int(re.search(r'Collected : (\d+)', said)[1])


def row(program, cell):
    side, operation, number, case, size = cell
    times = max(1, BYTES // int(size))
    once, twice = (counted(program, side, operation, number, many) for many in (times, 2 * times))
    count = f'{(twice - once) / times:.0f}'
    return '\t'.join(['instructions', operation, case, size, side, 'instructions', count, count, count])


def main():
    program = sys.argv[1]
    listed = subprocess.run([program, 'cells'], stdout=subprocess.PIPE, text=True, check=True).stdout
    cells = [line.split('\t') for line in listed.splitlines()]
    with concurrent.futures.ThreadPoolExecutor(os.cpu_count()) as pool:
        for line in pool.map(lambda cell: row(program, cell), cells):
            print(line)


main()
