"""How benchmarks/speed and benchmarks/growth measure (apt-get install valgrind time), and the files that they measure with."""
import functools
import os
import re
import subprocess
import sys

import inputs

HERE = os.path.dirname(os.path.abspath(__file__))
NOTHING = os.devnull


def own_program():
    """bin/vuthgal of the repository one stands in."""
    top = subprocess.run(['git', 'rev-parse', '--show-toplevel'], capture_output=True, text=True, check=True).stdout.strip()
    return os.path.join(top, 'bin/vuthgal')


def instructions(command, stdin=NOTHING):
    """How many instructions a command takes, as valgrind counts them: the same on any machine and under any load."""
    words = ['valgrind', '--tool=callgrind', '--callgrind-out-file=/dev/null'] + command
    with open(stdin) as given:
        ran = subprocess.run(words, stdin=given, stdout=subprocess.DEVNULL, stderr=subprocess.PIPE, text=True, errors='replace')
    found = re.search(r'Collected : (\d+)', ran.stderr)
    if ran.returncode or not found: sys.exit(f'{" ".join(command)}: status {ran.returncode}\n{ran.stderr[-500:]}')
    return int(found.group(1))


def peak(command, stdin=NOTHING, feeder=None):
    """The peak of a command's memory in MB; with a feeder it reads what that command writes."""
    words = ['time', '-f', '%M'] + command
    if feeder:
        with subprocess.Popen(feeder, stdout=subprocess.PIPE) as feeds:
            ran = subprocess.run(words, stdin=feeds.stdout, stdout=subprocess.DEVNULL, stderr=subprocess.PIPE, text=True)
    else:
        with open(stdin) as given:
            ran = subprocess.run(words, stdin=given, stdout=subprocess.DEVNULL, stderr=subprocess.PIPE, text=True)
    if ran.returncode: sys.exit(f'{" ".join(command)}: status {ran.returncode}\n{ran.stderr[-500:]}')
    return int(ran.stderr.split()[-1]) / 1024


class Room:
    """A folder of inputs, each made when it is first wanted; traces and images by the program that `command` begins."""

    def __init__(self, folder, command):
        self.folder, self.command, self.count = folder, command, 0

    def path(self):
        self.count += 1
        return os.path.join(self.folder, str(self.count))

    @functools.cache
    def file(self, text):
        path = self.path()
        with open(path, 'w') as out: out.write(text)
        return path

    @functools.cache
    def made(self, *words):
        """What the program writes to standard output."""
        path = self.path()
        with open(path, 'w') as out: subprocess.run(self.command + list(words), stdin=subprocess.DEVNULL, stdout=out, check=True)
        return path

    def program(self, name): return self.file(inputs.program(*inputs.PLAYS[name][:3]))

    def schedule(self, name, choices): return self.file(inputs.schedule(inputs.PLAYS[name][3], choices))

    def played(self, name, choices):
        """A program with its schedule, for standard input."""
        directives, threads, rows, pattern = inputs.PLAYS[name]
        return self.file(inputs.program(directives, threads, rows) + '.run\n' + inputs.schedule(pattern, choices) + '\n')

    def trace(self, name, choices): return self.made('run', self.program(name), self.schedule(name, choices))

    def text(self, name, many): return self.file(inputs.text(inputs.TEXTS[name], many))

    @functools.cache
    def image(self, name, many):
        path = self.path()
        subprocess.run(self.command + ['asm', self.text(name, many), path], check=True)
        return path
