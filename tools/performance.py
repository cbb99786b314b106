#!/usr/bin/env python3
"""Writes the tables of docs/PERFORMANCE.md from the benchmark's files.

    tools/performance.py [--note TEXT] RUN.csv [RUN.csv ...]

The tables are those of the first run. The targets are told over all runs. The note says what a reader
should know of these runs; without one the page has none.
"""
import argparse
import csv
import re
from pathlib import Path

PAGE = Path(__file__).resolve().parent.parent / 'docs/PERFORMANCE.md'

CHECKSUM_SIZES = [188, 256, 512, 4096, 65536, 1048576]
IMAGE_SIZES = {1 << 20: '1 MiB', 1 << 24: '16 MiB', 1 << 28: '256 MiB', 1 << 30: '1 GiB'}
COUNTS = [1, 8, 128]
MOST = 128 * 512
DISTANCES = [0, 16, 32, 64, 512, 2048]

# The opening's cases as the benchmark names them, and in words.
OPENINGS = {
    'no magic': '64 times random bytes',
    'headers, refused': '64 headers that the last rule refuses',
    'last accepted': '63 times random bytes, then an accepted header',
}


class Run:
    """One run of the benchmark: what it ran on, and its measurements."""

    def __init__(self, path):
        lines = Path(path).read_text().splitlines()
        told = [line[2:].split(': ', 1) for line in lines if line.startswith('# ')]
        self.machine = dict(told)
        self.rows = list(csv.DictReader(line for line in lines if not line.startswith('# ')))

    def find(self, **wanted):
        """The measurement with these values."""
        for row in self.rows:
            if all(row[name] == str(value) for name, value in wanted.items()):
                return Measured(row)
        raise SystemExit(f'no measurement of {wanted}')


class Measured:
    """One measurement: median times in nanoseconds, and the ratios of medians and of minima."""

    def __init__(self, row):
        self.ours = float(row['ours_median_ns'])
        self.peer = float(row['peer_median_ns'])
        self.ratio = float(row['ratio_of_medians'])
        self.ratio_of_minima = float(row['ratio_of_minima'])

    def cells(self):
        return [time(self.ours), time(self.peer), *self.ratios()]

    def ratios(self):
        return [f'{self.ratio:.2f}', f'{self.ratio_of_minima:.2f}']


def time(nanoseconds):
    for unit, size in (('ns', 1), ('µs', 1e3)):
        if nanoseconds < 999.5 * size:
            return f'{nanoseconds / size:#.3g}'.rstrip('.') + f' {unit}'
    return f'{nanoseconds / 1e6:#.3g} ms'


def table(head, rows):
    lines = [head, ['---'] + ['---:'] * (len(head) - 1), *rows]
    return '\n'.join('| ' + ' | '.join(line) + ' |' for line in lines)


def machine(run):
    return '\n'.join(f'- {name}: {value}' for name, value in run.machine.items())


def checksums(run):
    def row(size):
        peers = [run.find(series='crc32', bytes=size, peer=peer) for peer in ('byte table', 'zlib')]
        cells = [cell for peer in peers for cell in (time(peer.peer), *peer.ratios())]
        return [f'{size:,}', time(peers[0].ours), *cells]

    head = ['bytes', 'ours', 'byte table', 'ratio', 'of minima', 'zlib', 'ratio', 'of minima']
    return table(head, map(row, CHECKSUM_SIZES))


def openings(run):
    rows = [[words, *run.find(series='opening', case=case).cells()] for case, words in OPENINGS.items()]
    return table(['candidates', 'ours', 'Rust program', 'ratio', 'of minima'], rows)


def copies(run):
    def row(operation, count):
        found = run.find(series='fixed', operation=operation, bytes=count * 512, image_size=1 << 20)
        return [f'{operation}, {count}', *found.cells()]

    rows = [row(operation, count) for operation in ('read', 'write') for count in COUNTS]
    return table(['sectors', 'ours', 'memcpy', 'ratio', 'of minima'], rows)


def sizes(run):
    def cell(**wanted):
        found = run.find(**wanted)
        return f'{time(found.ours)} : {time(found.peer)} ({found.ratio:.2f})'

    def row(series, operation, count):
        wanted = {'series': series, 'operation': operation, 'bytes': count * 512}
        place = 'at one place' if series == 'fixed' else 'scattered'
        return [f'{operation}, {count}, {place}', *(cell(image_size=size, **wanted) for size in IMAGE_SIZES)]

    rows = [
        row(series, operation, count)
        for series in ('fixed', 'scattered') for operation in ('read', 'write') for count in COUNTS
    ]
    return table(['sectors', *IMAGE_SIZES.values()], rows)


def distances(run):
    def row(distance):
        case = f'128 sectors, distance {distance}'
        both = [run.find(series='distance', operation=operation, case=case) for operation in ('read', 'write')]
        return [str(distance), *(cell for found in both for cell in (*found.cells()[:2], found.ratios()[0]))]

    head = ['distance', 'read, ours', 'memcpy', 'ratio', 'write, ours', 'memcpy', 'ratio']
    return table(head, map(row, DISTANCES))


def ciphers(run):
    rows = [[operation, *run.find(series='cipher', operation=operation).cells()] for operation in ('encipher', 'decipher')]
    return table(['64 KiB', 'ours', 'Rust program', 'ratio', 'of minima'], rows)


def plaintexts(run):
    def row(operation, count):
        found = run.find(series='plaintext', operation=operation, bytes=count * 512)
        return [f'{operation}, {count}', time(found.ours), time(found.peer), f'{found.ours / found.peer:,.0f} times']

    rows = [row(operation, count) for operation in ('read', 'write') for count in (1, 128)]
    return table(['sectors', 'plaintext', 'raw', 'takes as long'], rows)


class Target:
    """A ratio to reach, and the ratios of all runs, as they are printed."""

    def __init__(self, runs, words, least, **wanted):
        self.words, self.least = words, least
        self.ratios = [round(run.find(**wanted).ratio, 2) for run in runs]
        self.met = sum(ratio >= least for ratio in self.ratios)

    def cells(self):
        spread = f'{min(self.ratios):.2f} to {max(self.ratios):.2f}'
        met = f'{self.met} of {len(self.ratios)}'
        return [self.words, f'{self.least:.1f}', f'{self.ratios[0]:.2f}', spread, met]


def targets(runs):
    copy = {'series': 'fixed', 'bytes': MOST, 'image_size': 1 << 20}
    found = [Target(runs, f'{name} of 128 sectors', 0.9, operation=name, **copy) for name in ('read', 'write')]
    for size in CHECKSUM_SIZES:
        found.append(Target(runs, f'CRC-32 of {size:,} bytes', 1, bytes=size, peer='byte table'))
    for case, words in OPENINGS.items():
        found.append(Target(runs, f'opening {words}', 1, series='opening', case=case))
    for name in ('encipher', 'decipher'):
        found.append(Target(runs, f'{name} 64 KiB', 0.5, series='cipher', operation=name))
    head = ['', 'target', 'this run', 'all runs', 'met in runs']
    return table(head, [target.cells() for target in found]) + '\n\n' + verdict(found, len(runs))


def verdict(found, count):
    """Which targets were met in every run, in some, and in none."""
    sentences = []
    for words, held in (('every run', lambda met: met == count), ('some runs', lambda met: 0 < met < count),
                        ('no run', lambda met: met == 0)):
        names = [target.words for target in found if held(target.met)]
        if names:
            sentences.append(f'Met in {words}: {"; ".join(names)}.')
    return '\n\n'.join(sentences)


def replaced(page, name, text):
    block = re.compile(f'(<!-- {name} -->\n).*?(<!-- /{name} -->)', re.DOTALL)
    if not block.search(page):
        raise SystemExit(f'{PAGE.name} has no block {name}')
    return block.sub(lambda found: found[1] + text + '\n' + found[2], page)


def main():
    parser = argparse.ArgumentParser(description='Writes the tables of docs/PERFORMANCE.md.')
    parser.add_argument('--note', default='')
    parser.add_argument('runs', nargs='+', type=Run, metavar='RUN.csv')
    given = parser.parse_args()
    page = replaced(PAGE.read_text(), 'note', given.note)
    page = replaced(page, 'targets', targets(given.runs))
    for part in (machine, checksums, openings, copies, sizes, distances, ciphers, plaintexts):
        page = replaced(page, part.__name__, part(given.runs[0]))
    PAGE.write_text(page)


if __name__ == '__main__':
    main()
