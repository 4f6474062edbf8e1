"""The two sides: a script run in a process of its own, and the oracle spoken to line by line."""

import os
import select
import signal
import subprocess
import time


class Stopped(Exception):
    """An implementation ended early or ran over its time limit; the text says which."""


class Program:
    """A program that reads a script from standard input and writes its trace to standard output, a process for each script."""

    def __init__(self, path, limit, *options):
        self.command = [path, *options]
        self.limit = limit
        self.input = os.memfd_create("script")
        self.output = os.memfd_create("trace")
        self.nowhere = os.open(os.devnull, os.O_RDWR)
        self.places = [
            (os.POSIX_SPAWN_DUP2, self.input, 0),
            (os.POSIX_SPAWN_DUP2, self.output, 1),
            (os.POSIX_SPAWN_DUP2, self.nowhere, 2),
        ]

    def run(self, script):
        """The trace's lines, and how the run ended if not well (else None)."""
        refill(self.input, script.encode())
        refill(self.output, b"")
        process = os.posix_spawn(self.command[0], self.command, {}, file_actions=self.places)
        ended = wait(process, self.limit)
        os.lseek(self.output, 0, os.SEEK_SET)
        size = os.fstat(self.output).st_size
        *lines, last = read_all(self.output, size).decode("ascii", "backslashreplace").split("\n")
        return lines + [last + " (no line end)"] * (last != ""), ended


def refill(file, content):
    os.ftruncate(file, 0)
    os.lseek(file, 0, os.SEEK_SET)
    write_all(file, content)
    os.lseek(file, 0, os.SEEK_SET)


def write_all(file, content):
    while content:
        content = content[os.write(file, content):]


def read_all(file, size):
    parts = []
    while size > 0:
        part = os.read(file, size)
        if not part:
            break
        parts.append(part)
        size -= len(part)
    return b"".join(parts)


def wait(process, limit):
    """Waits for a process, at most so many seconds; says how it ended if not well."""
    handle = os.pidfd_open(process)
    try:
        in_time = select.select([handle], [], [], limit)[0]
        if not in_time:
            os.kill(process, signal.SIGKILL)
        status = os.waitpid(process, 0)[1]
    finally:
        os.close(handle)
    if not in_time:
        return f"no end within {limit} s"
    if os.WIFSIGNALED(status):
        return f"killed by signal {os.WTERMSIG(status)}"
    code = os.WEXITSTATUS(status)
    return f"exit status {code}" if code else None


class Coprocess:
    """The oracle with --interactive: a script goes in piece by piece, each piece's trace comes out at once."""

    def __init__(self, path, limit):
        self.limit = limit
        self.process = subprocess.Popen(
            [path, "--interactive"], stdin=subprocess.PIPE, stdout=subprocess.PIPE, stderr=subprocess.DEVNULL, bufsize=0
        )
        self.to = self.process.stdin.fileno()
        self.back = self.process.stdout.fileno()
        self.rest = b""

    def ask(self, text, count=1):
        """Sends script text that has `count` lines of trace, and gives these. The text is short enough not to fill both pipes."""
        write_all(self.to, text.encode())
        back = self.rest
        while back.count(b"\n") < count:
            back += self.more()
        *lines, self.rest = back.split(b"\n")
        return [line.decode("ascii") for line in lines]

    def more(self):
        until = time.monotonic() + self.limit
        while not select.select([self.back], [], [], max(0, until - time.monotonic()))[0]:
            if time.monotonic() >= until:
                self.stop()
                raise Stopped(f"no answer within {self.limit} s")
        part = os.read(self.back, 1 << 18)
        if not part:
            self.stop()
            raise Stopped("the oracle ended")
        return part

    def stop(self):
        self.process.kill()
        self.process.wait()
        self.process.stdin.close()
        self.process.stdout.close()
