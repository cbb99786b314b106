#!/usr/bin/env python3
"""Checks what a read of 768 KiB shows at a terminal: terminal.py PROGRAM ARGUMENTS.., the arguments of read but the file."""
import os
import pty
import subprocess
import sys
import time

LINE = ' of 768.0 KiB ('


def read_slowly(errors):
    """Reads by a pipe that is not emptied for more than a second, once the first byte has come."""
    process = subprocess.Popen([sys.argv[1], 'read', *sys.argv[2:], '-'], stdout=subprocess.PIPE, stderr=errors)
    first = process.stdout.read(1)
    time.sleep(1.5)
    assert len(first + process.stdout.read()) == 1536 * 512, 'not all is read'
    assert process.wait() == 0, f'it ended with {process.returncode}'


def all_of(reader):
    """What was written. Where all who wrote have closed it, a pipe ends and a terminal gives an error."""
    told = b''
    while True:
        try:
            part = os.read(reader, 65_536)
        except OSError:
            part = b''
        if not part:
            return told.decode()
        told += part


def on_terminal():
    reader, terminal = pty.openpty()
    read_slowly(terminal)
    os.close(terminal)
    return all_of(reader)


def beside_terminal():
    reader, writer = os.pipe()
    read_slowly(writer)
    os.close(writer)
    return all_of(reader)


def to_terminal():
    """How a read to a terminal ends. Nobody empties it, so one that is not refused does not end by itself."""
    _, terminal = pty.openpty()
    return subprocess.call([sys.argv[1], 'read', *sys.argv[2:], '-'], stdout=terminal, timeout=20)


shown = on_terminal()
print(repr(shown))
assert '\rread ' in shown and LINE in shown, 'no progress is shown'
assert shown.endswith('\r\x1b[Kread outer sector 0, count 1,536, to standard output\r\n'), 'the line is not taken away'
assert LINE not in beside_terminal(), 'progress is shown where there is no terminal'
assert to_terminal() == 2, 'sectors are written to a terminal'
print('as it should be')
