#!/usr/bin/env python3
"""Disturbs a copy that is under way, and checks how it ends, what it says and what it leaves.

    disturbed.py PROGRAM read|write INT|TERM|HUP|cut

It works in the current folder, on an image of 1 TiB that it makes there; 64 GiB are to be copied, so that the copy is
under way for long. cut makes the image shorter.
"""
import glob
import os
import re
import signal
import subprocess
import sys
import time
from pathlib import Path

sys.path.insert(0, str(Path(__file__).resolve().parent.parent))
from vectors.headers import SALT, header  # noqa: E402

HOST_SIZE = 2**40
DATA_START = 131_072
CALL = 65_536
COUNT = 2**27
MARKED = 4_096
CUT_SIZE = 524_288
PARTS = '.volumes-*.part'


def mark(call):
    return call.to_bytes(8, 'big') * 64


def make_files():
    """The image, its header, and a source whose first calls begin with a mark each."""
    with open('wide.img', 'wb') as image:
        image.write(SALT)
        image.truncate(HOST_SIZE)
    Path('wide.header').write_bytes(header(data_size=HOST_SIZE - 262_144))
    with open('wide.source', 'wb') as source:
        source.truncate(COUNT * 512)
        for call in range(1, MARKED):
            os.pwrite(source.fileno(), mark(call), call * CALL)


def usual_signals():
    """Lets every signal do what it usually does: what a script starts in its background ignores Ctrl-C."""
    for number in (signal.SIGHUP, signal.SIGINT, signal.SIGTERM):
        signal.signal(number, signal.SIG_DFL)


def start(program, verb):
    words = {'read': ['outer', '0', str(COUNT), 'wide.copy'], 'write': ['outer', '0', 'wide.source']}
    command = [program, verb, 'wide.img', '--outer', 'wide.header', *words[verb]]
    return subprocess.Popen(command, stdout=subprocess.DEVNULL, stderr=subprocess.PIPE, text=True,
                            preexec_fn=usual_signals)


def written(call):
    with open('wide.img', 'rb') as image:
        return os.pread(image.fileno(), 512, DATA_START + call * CALL) == mark(call)


def begun(verb):
    if verb == 'write':
        return written(1)
    return any(os.path.getsize(part) > 0 for part in glob.glob(PARTS))


def disturb(process, disturbance):
    if disturbance == 'cut':
        os.truncate('wide.img', CUT_SIZE)
    else:
        process.send_signal(getattr(signal, f'SIG{disturbance}'))


def check_write(told, disturbance):
    match = re.search(r'^written: outer sectors 0 to ([\d,]+), of outer sectors 0 to 134,217,727$', told, re.M)
    assert match, 'it does not say what was written'
    sectors = int(match[1].replace(',', '')) + 1
    assert sectors % 128 == 0, 'it did not finish the call in hand'
    calls = sectors // 128
    if disturbance != 'cut':
        assert all(written(call) for call in range(1, min(calls, MARKED))), 'not all of that is written'
        assert calls >= MARKED or not written(calls), 'more than that is written'


def check_read():
    assert not os.path.exists('wide.copy'), 'half a copy is left'
    assert not glob.glob(PARTS), 'a part of a copy is left'


def told_by(process, verb, disturbance):
    """What the copy says in the end. If it does not end by itself it is killed, since it would fill the disk."""
    deadline = time.monotonic() + 20
    try:
        while not begun(verb):
            assert process.poll() is None and time.monotonic() < deadline, 'it did not begin'
        disturb(process, disturbance)
        return process.communicate(timeout=20)[1]
    finally:
        process.kill()


def main():
    program, verb, disturbance = sys.argv[1:]
    make_files()
    process = start(program, verb)
    told = told_by(process, verb, disturbance)
    print(told)
    cut = disturbance == 'cut'
    assert process.returncode == (1 if cut and verb == 'read' else 3), f'it ended with {process.returncode}'
    assert ('(refusal 13)' if cut else 'stopped: by a signal') in told, 'it does not say why'
    check_write(told, disturbance) if verb == 'write' else check_read()
    for name in glob.glob('wide.*'):
        os.remove(name)
    print('as it should be')


main()
