#!/usr/bin/env python3
"""faults.py PYX2NT

What pyx2nt does where its input or its output fails: a full device and a full disk, a limit on a file's size, streams
that are closed, or open the wrong way, or that would have to wait, a reader that goes away, a sender that breaks off, an
argument that it does not know. What was written must be the front of the whole output, of exactly the number of bytes
that is told, and hold the lines of all events that are told as whole.
"""
import contextlib
import fcntl
import os
import pathlib
import re
import resource
import shlex
import shutil
import signal
import socket
import subprocess
import sys
import tempfile
import time

SAMPLE = pathlib.Path(__file__).parent.parent / 'samples' / 'picture.pyx'
COPIES = 200
FRONT, BACK = 5, 2  # the lines of the sample before its node element, and those behind it
LIMIT = 100_000  # bytes of a file, no end of a line or of a block
ROOM = 256 * 1024  # bytes of a small disk
PATIENCE = 60
NOT_MOUNTED = 77
NOTHING_WRITTEN = b'pyx2nt: write failed after 0 whole events and 0 bytes: '
NOTHING_READ = b'pyx2nt: read failed after 0 whole events and 0 bytes: '
UNKNOWN = b'pyx2nt: unknown argument: %s; it takes none and reads standard input\n'
TOLD = re.compile(rb'pyx2nt: (write|read) failed after (\d+) whole events and (\d+) bytes: ([^\n]*)\n')
REFUSED = re.compile(rb'# refused (\d+) at event (\d+)\n')


class NotTried(Exception):
    pass


def document():
    """The sample's node elements many times over, under one root."""
    lines = SAMPLE.read_bytes().splitlines(True)
    return b''.join(lines[:FRONT] + lines[FRONT:-BACK] * COPIES + lines[-BACK:])


def events(text, count):
    """The first events: a start tag goes on with its attributes."""
    starts = [m.start() for m in re.finditer(rb'^[^A]', text, re.M)] + [len(text)]
    return text[:starts[count]]


class Tester:
    def __init__(self, command, folder):
        self.command = command
        self.text = document()
        self.source = folder / 'document'
        self.target = folder / 'output'
        self.folder = folder
        self.source.write_bytes(self.text)
        self.whole = self.printed(self.text)
        assert len(self.whole) > 2 * max(LIMIT, ROOM) and not REFUSED.search(self.whole), self.whole[-80:]

    def printed(self, text):
        done = subprocess.run(self.command, input=text, capture_output=True, timeout=PATIENCE)
        assert (done.returncode, done.stderr) == (0, b''), done.stderr
        return done.stdout

    def run(self, stdin=None, stdout=None, words=(), **how):
        """Its exit status and what it said; what it wrote is in the target, unless it went elsewhere."""
        with open(self.source, 'rb') as source, open(self.target, 'wb') as target:
            stdin = source if stdin is None else stdin
            stdout = target if stdout is None else stdout
            done = subprocess.run([*self.command, *words], stdin=stdin, stdout=stdout, stderr=subprocess.PIPE,
                                  timeout=PATIENCE, **how)
        return done.returncode, done.stderr

    def start(self, stdin, stdout, **how):
        return subprocess.Popen(self.command, stdin=stdin, stdout=stdout, stderr=subprocess.PIPE, **how)

    def lines_of(self, count):
        """The lines of the first events, which leave the root open."""
        out = self.printed(events(self.text, count))
        refused = REFUSED.search(out)
        assert refused and (int(refused[1]), int(refused[2])) == (6, count + 1), out[-80:]
        return out[:refused.start()]

    def failed(self, said, call, why, out):
        """One line, and what was written agrees with it. Where nothing was, no event may be told."""
        told = TOLD.fullmatch(said)
        assert told, said
        assert (told[1], told[4]) == (call, why), said
        whole, size = int(told[2]), int(told[3])
        assert len(out) == size, (len(out), said)
        assert self.whole.startswith(out), said
        lines = self.lines_of(whole) if whole else b''
        assert out.startswith(lines), said
        assert call == b'write' or out == lines, said
        return size

    # ---- trials

    def good(self):
        assert self.run() == (0, b'')
        assert self.target.read_bytes() == self.whole

    def full_device(self):
        with open('/dev/full', 'wb') as full:
            status, said = self.run(stdout=full)
        assert (status, said) == (0, NOTHING_WRITTEN + b'No space left on device\n'), said

    def last_line_unwritten(self):
        """The last line fails, behind no other."""
        with open('/dev/full', 'wb') as full:
            done = subprocess.run(self.command, input=b'', stdout=full, stderr=subprocess.PIPE, timeout=PATIENCE)
        assert done.stderr == NOTHING_WRITTEN + b'No space left on device\n', done.stderr

    def limit_told(self):
        status, said = self.run(preexec_fn=limited(signal.SIG_IGN), restore_signals=False)
        assert status == 0
        assert self.failed(said, b'write', b'File too large', self.target.read_bytes()) == LIMIT

    def limit_by_signal(self):
        status, said = self.run(preexec_fn=limited(signal.SIG_DFL))
        assert (status, said) == (-signal.SIGXFSZ, b''), (status, said)
        assert self.target.read_bytes() == self.whole[:LIMIT]

    def full_disk(self):
        """A disk of its own, in a namespace of mounts of its own, where that is allowed."""
        if not shutil.which('unshare'):
            raise NotTried('there is no unshare')
        disk = self.folder / 'disk'
        disk.mkdir()
        mount = f'mount -t tmpfs -o size={ROOM} none "$0" 2>/dev/null || exit {NOT_MOUNTED}'
        script = mount + '; "$@" > "$0/output"; cat "$0/output"'
        with open(self.source, 'rb') as source:
            done = subprocess.run(['unshare', '-rm', 'sh', '-c', script, disk, *self.command], stdin=source,
                                  capture_output=True, timeout=PATIENCE)
        if done.returncode:
            raise NotTried('a tmpfs may not be mounted here')
        size = self.failed(done.stderr, b'write', b'No space left on device', done.stdout)
        assert 0 < size <= ROOM, size

    def closed_output(self):
        status, said = self.run(preexec_fn=lambda: os.close(1))
        assert (status, said) == (0, NOTHING_WRITTEN + b'Bad file descriptor\n'), said

    def closed_input(self):
        self.unread(b'Bad file descriptor', preexec_fn=lambda: os.close(0))

    def directory(self):
        with opened(self.folder, os.O_RDONLY) as folder:
            self.unread(b'Is a directory', stdin=folder)

    def writing_only(self):
        with opened(self.source, os.O_WRONLY) as source:
            self.unread(b'Bad file descriptor', stdin=source)

    def unread(self, why, **how):
        """Nothing could be read: no line of a refusal either."""
        status, said = self.run(**how)
        assert (status, said) == (0, NOTHING_READ + why + b'\n'), said
        assert self.target.read_bytes() == b''

    def slow_reader(self):
        get, put = os.pipe()
        unwaiting(put)
        with open(self.source, 'rb') as source:
            program = self.start(source, put)
        os.close(put)
        out = b''
        while piece := os.read(get, 4096):
            out += piece
            time.sleep(0.001)
        os.close(get)
        assert (program.communicate(timeout=PATIENCE)[1], program.returncode) == (b'', 0)
        assert out == self.whole

    def slow_writer(self):
        get, put = os.pipe()
        unwaiting(get)
        with open(self.target, 'wb') as target:
            program = self.start(get, target)
        os.close(get)
        for at in range(0, len(self.text), 16 * 1024):
            time.sleep(0.01)
            os.write(put, self.text[at:at + 16 * 1024])
        os.close(put)
        assert (program.communicate(timeout=PATIENCE)[1], program.returncode) == (b'', 0)
        assert self.target.read_bytes() == self.whole

    def gone(self, **how):
        """The reader goes away behind the first bytes: what it got, what was said, and the exit status."""
        get, put = os.pipe()
        with open(self.source, 'rb') as source:
            program = self.start(source, put, **how)
        os.close(put)
        out = os.read(get, 4096)
        os.close(get)
        said = program.communicate(timeout=PATIENCE)[1]
        return out, said, program.returncode

    def gone_by_signal(self):
        out, said, status = self.gone()
        assert (status, said) == (-signal.SIGPIPE, b''), (status, said)
        assert self.whole.startswith(out)

    def gone_told(self):
        ignoring = lambda: signal.signal(signal.SIGPIPE, signal.SIG_IGN)
        out, said, status = self.gone(preexec_fn=ignoring, restore_signals=False)
        told = TOLD.fullmatch(said)
        assert told and (told[1], told[4], status) == (b'write', b'Broken pipe', 0), said
        assert len(out) <= int(told[3]) < len(self.whole), said
        assert self.whole[:int(told[3])].startswith(self.lines_of(int(told[2])) if int(told[2]) else b''), said

    def broken_off(self):
        """The sender breaks off in the middle: a socket whose other end is closed with bytes unread fails behind those
        that it still holds."""
        ours, theirs = socket.socketpair()
        theirs.sendall(b'unread')
        with open(self.target, 'wb') as target:
            program = self.start(theirs, target)
        theirs.close()
        ours.sendall(self.text[:len(self.text) // 2])
        ours.close()
        said = program.communicate(timeout=PATIENCE)[1]
        assert 0 < self.failed(said, b'read', b'Connection reset by peer', self.target.read_bytes()) < len(self.whole)
        assert program.returncode == 0

    def argument(self, word, shown):
        status, said = self.run(words=[word])
        assert (status, said) == (0, UNKNOWN % shown), said
        assert self.target.read_bytes() == b''

    def unknown_argument(self):
        self.argument(b'--help', b'--help')

    def long_argument(self):
        self.argument(b'0123456789' * 100, (b'0123456789' * 100)[:256])

    def argument_of_two_lines(self):
        self.argument(b'one\ntwo', b'one?two')


def limited(action):
    def set_limit():
        signal.signal(signal.SIGXFSZ, action)
        resource.setrlimit(resource.RLIMIT_FSIZE, (LIMIT, LIMIT))
    return set_limit


def unwaiting(end):
    fcntl.fcntl(end, fcntl.F_SETFL, fcntl.fcntl(end, fcntl.F_GETFL) | os.O_NONBLOCK)


@contextlib.contextmanager
def opened(path, way):
    end = os.open(path, way)
    try:
        yield end
    finally:
        os.close(end)


def main(program):
    passed = failed = 0
    with tempfile.TemporaryDirectory() as folder:
        tester = Tester(shlex.split(program), pathlib.Path(folder))
        for what, trial in (
            ('a good run', tester.good),
            ('a full device', tester.full_device),
            ('a full device for the last line', tester.last_line_unwritten),
            ('a limit on the size of a file, its signal ignored', tester.limit_told),
            ('a limit on the size of a file', tester.limit_by_signal),
            ('a full disk', tester.full_disk),
            ('output closed', tester.closed_output),
            ('input closed', tester.closed_input),
            ('a directory as input', tester.directory),
            ('input open for writing only', tester.writing_only),
            ('output that would have to wait, and a slow reader', tester.slow_reader),
            ('input that would have to wait, and a slow writer', tester.slow_writer),
            ('a reader that goes away', tester.gone_by_signal),
            ('a reader that goes away, its signal ignored', tester.gone_told),
            ('a sender that breaks off', tester.broken_off),
            ('an argument', tester.unknown_argument),
            ('a long argument', tester.long_argument),
            ('an argument of two lines', tester.argument_of_two_lines),
        ):
            try:
                trial()
            except NotTried as why:
                print(f'{what}: not tried: {why}', flush=True)
            except (AssertionError, OSError, subprocess.TimeoutExpired) as why:
                failed += 1
                print(f'{what}: FAILED: {why}', flush=True)
            else:
                passed += 1
                print(f'{what}: as it must be', flush=True)
    print(f'{passed} passed, {failed} failed')
    return failed == 0


if __name__ == '__main__':
    if len(sys.argv) != 2:
        sys.exit(__doc__)
    sys.exit(0 if main(sys.argv[1]) else 1)
