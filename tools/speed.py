"""Runs the same work in ABC, CPython and Lua, and prints the table of docs/SPEED.md.

    speed.py PROGRAM [TIMES]

The programs stand in the folder speed beside this file. Each is run TIMES times (3), in turn, and the least time counts: processor time, user and system, of
the whole process, and for the commits, which wait for the disk, the time on the clock. What is written has to agree. Stores and files stand in a folder of
TMPDIR, which should be on a disk.
"""
import os
import platform
import re
import resource
import subprocess
import sys
import tempfile
import time

HERE = os.path.join(os.path.dirname(os.path.abspath(__file__)), 'speed')
WORKS = [
    ('start', 'an empty input', False),
    ('loop', '10^6 turns of a WHILE that adds 1', False),
    ('recursion', 'fib 23: 92,735 calls', False),
    ('table', '10^5 keys put in no order, then 10^5 looks', False),
    ('list', '20,000 numbers inserted in order, then 20,000 looks', False),
    ('words', '9,000 words of a text counted in a table', False),
    ('quotients', '40,000 sums of fractions', False),
    ('commit', '1,000 values, each on the disk before the next', True),
]


def run(words, source, by_clock):
    """Seconds and what was written."""
    before, at = resource.getrusage(resource.RUSAGE_CHILDREN), time.perf_counter()
    with open(source, 'rb') as f:
        p = subprocess.run(words, stdin=f, stdout=subprocess.PIPE, timeout=600)
    clock = time.perf_counter() - at
    after = resource.getrusage(resource.RUSAGE_CHILDREN)
    if p.returncode:
        raise SystemExit('%s: status %d' % (words, p.returncode))
    used = after.ru_utime - before.ru_utime + after.ru_stime - before.ru_stime
    return clock if by_clock else used, p.stdout


def answers(said):
    """What was written, without ABC's replies; numbers of a line apart."""
    return [line.split() for line in said.decode().split('\n') if line and not re.match(r'\[\d+\] ', line)]


def main(program, times='3'):
    program = os.path.abspath(program)
    name = re.search(r'model name\s*: (.*)', open('/proc/cpuinfo').read()).group(1)
    version = subprocess.run(['lua', '-v'], stdout=subprocess.PIPE).stdout.decode().split()[1]
    best, wrote = {}, {}
    with tempfile.TemporaryDirectory() as folder:
        for turn in range(int(times)):
            for work, _, by_clock in WORKS:
                store = os.path.join(folder, '%s-%d' % (work, turn))
                base = os.path.join(HERE, work)
                for language, words, source in (('ABC', [program, store, '--steps', '1000000000000'], base + '.abc'),
                                                ('CPython', [sys.executable, base + '.py', store + '.py'], os.devnull),
                                                ('Lua', ['lua', base + '.lua', store + '.lua'], os.devnull)):
                    seconds, said = run(words, source, by_clock)
                    best[work, language] = min(seconds, best.get((work, language), seconds))
                    wrote[work, language] = answers(said)
                if wrote[work, 'ABC'] != wrote[work, 'CPython'] or wrote[work, 'Lua'] != wrote[work, 'CPython']:
                    print('%s: the answers differ: %r' % (work, {k[1]: v[:3] for k, v in wrote.items() if k[0] == work}))
    print('%s, %d processors, %s %s; %s; the least of %s runs, in seconds.\n'
          % (name, os.cpu_count(), platform.system(), platform.release(), time.strftime('%Y-%m-%d', time.gmtime()), times))
    print('| work | | ABC | CPython %s | Lua %s | ABC to CPython |\n|---|---|---|---|---|---|' % (platform.python_version(), version))
    for work, what, by_clock in WORKS:
        a, c, l = (best[work, k] for k in ('ABC', 'CPython', 'Lua'))
        print('| %s | %s%s | %.3f | %.3f | %.3f | %s |' % (work, what, ', by the clock' if by_clock else '', a, c, l, '%.1f' % (a / c) if a / c < 10 else '%.0f' % (a / c)))


if __name__ == '__main__':
    main(*sys.argv[1:])
