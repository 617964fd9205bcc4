"""What a call of a program takes: processor time, or instructions where valgrind is there."""
import os
import re
import resource
import shutil
import subprocess
import sys

TOP = os.path.dirname(os.path.dirname(os.path.realpath(__file__)))


def called(words, statuses=(0,)):
    """The output and the error line of a call, which has to end with one of the statuses."""
    done = subprocess.run(words, stdin=subprocess.DEVNULL, stdout=subprocess.PIPE, stderr=subprocess.PIPE)
    if done.returncode not in statuses:
        sys.exit('%s: status %d: %s' % (' '.join(words), done.returncode, done.stderr.decode(errors='replace').strip()))
    return done.stdout, done.stderr


def plcx(named):
    """The program that is named, else that of this repository, which its script builds where it is missing or old."""
    if named is None:
        called([os.path.join(TOP, 'plcx'), 'compile', os.path.join(TOP, 'examples', 'one-wire.xml')])
        named = os.path.join(TOP, 'crates', 'plcx', 'out', 'plcx')
    return os.path.abspath(named)


def seconds(words, times):
    """User and system time of a call in seconds, the least of several."""
    spent = []
    for _ in range(times):
        before = resource.getrusage(resource.RUSAGE_CHILDREN)
        subprocess.run(words, stdin=subprocess.DEVNULL, stdout=subprocess.DEVNULL, stderr=subprocess.DEVNULL)
        after = resource.getrusage(resource.RUSAGE_CHILDREN)
        spent.append(after.ru_utime + after.ru_stime - before.ru_utime - before.ru_stime)
    return min(spent)


def instructions(words):
    """Instructions of a call, as valgrind counts them."""
    if not shutil.which('valgrind'):
        sys.exit('there is no valgrind')
    counted = ['valgrind', '--tool=callgrind', '--callgrind-out-file=' + os.devnull]
    done = subprocess.run(counted + words, stdin=subprocess.DEVNULL, stdout=subprocess.DEVNULL, stderr=subprocess.PIPE)
    count = re.search(rb'Collected : (\d+)', done.stderr)
    return int(count.group(1)) if count else sys.exit('no instructions are counted of ' + words[0])
