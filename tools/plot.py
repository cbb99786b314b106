#!/usr/bin/env python3
"""Draws docs/performance.svg from a file of the benchmark.

    tools/plot.py RUN.csv
"""
import math
import sys
from pathlib import Path

from performance import CHECKSUM_SIZES, COUNTS, DISTANCES, IMAGE_SIZES, MOST, OPENINGS, Run

PLOT = Path(__file__).resolve().parent.parent / 'docs/performance.svg'

# Okabe and Ito's colours, which colour-blind readers can tell apart.
BLUE, ORANGE, GREEN, RED, INK, GREY = '#0072B2', '#E69F00', '#009E73', '#D55E00', '#222222', '#D8D8D8'
FONT = 'font-family="DejaVu Sans, Helvetica, Arial, sans-serif"'
HALO = 'stroke="white" stroke-width="3" paint-order="stroke"'

WIDTH, HEIGHT = 1200, 750
PANEL_WIDTH, PANEL_HEIGHT = 300, 210


def text(x, y, words, anchor='middle', size=12, more=''):
    return (f'<text x="{x:.1f}" y="{y:.1f}" text-anchor="{anchor}" font-size="{size}" fill="{INK}" '
            f'{more}>{words}</text>')


def line(x1, y1, x2, y2, colour=GREY, width=1, dashes=''):
    return (f'<line x1="{x1:.1f}" y1="{y1:.1f}" x2="{x2:.1f}" y2="{y2:.1f}" stroke="{colour}" '
            f'stroke-width="{width}" stroke-dasharray="{dashes}"/>')


class Panel:
    """One plot: places with names on the x axis, values on a linear or logarithmic y axis."""

    def __init__(self, column, row, title, unit, names, caption, ticks, logarithmic=False):
        self.left, self.top = 75 + 390 * column, 75 + 365 * row
        self.right, self.bottom = self.left + PANEL_WIDTH, self.top + PANEL_HEIGHT
        self.scale = math.log10 if logarithmic else float
        self.least, self.most = self.scale(ticks[0]), self.scale(ticks[-1])
        self.step = PANEL_WIDTH / len(names)
        self.parts = [text(self.left - 45, self.top - 42, title, 'start', 14, 'font-weight="bold"'),
                      text(self.left - 45, self.top - 23, unit, 'start', 11),
                      text((self.left + self.right) / 2, self.bottom + 37, caption)]
        for tick in ticks:
            self.parts.append(line(self.left, self.y(tick), self.right, self.y(tick)))
            self.parts.append(text(self.left - 8, self.y(tick) + 4, f'{tick:g}', 'end'))
        for place, name in enumerate(names):
            self.parts.append(text(self.x(place), self.bottom + 18, name, size=11))

    def x(self, place):
        return self.left + (place + 0.5) * self.step

    def y(self, value):
        part = (self.scale(value) - self.least) / (self.most - self.least)
        return self.bottom - PANEL_HEIGHT * part

    def bars(self, groups, colours, target):
        """Bars with their values, and the target as a line across them."""
        width = self.step * 0.76 / len(colours)
        labels = []
        for place, values in enumerate(groups):
            for index, (value, colour) in enumerate(zip(values, colours)):
                x, y = self.x(place) + (index - len(colours) / 2) * width, self.y(value)
                size = f'width="{width - 2:.1f}" height="{self.bottom - y:.1f}"'
                self.parts.append(f'<rect x="{x:.1f}" y="{y:.1f}" {size} fill="{colour}"/>')
                labels.append(text(x + width / 2 - 1, y - 4, f'{value:.2f}', 'middle', min(11, width / 2.3), HALO))
        self.parts.append(line(self.left, self.y(target), self.right, self.y(target), RED, 1.5, '6 4'))
        self.parts += [text(self.right + 5, self.y(target) + 4, f'{target:.1f}', 'start', 11), *labels]

    def curve(self, values, colour, dashes=''):
        points = [(self.x(place), self.y(value)) for place, value in enumerate(values)]
        path = ' '.join(f'{x:.1f},{y:.1f}' for x, y in points)
        stroke = f'stroke="{colour}" stroke-width="2" stroke-dasharray="{dashes}"'
        self.parts.append(f'<polyline points="{path}" fill="none" {stroke}/>')
        self.parts += [f'<circle cx="{x:.1f}" cy="{y:.1f}" r="3.5" fill="{colour}"/>' for x, y in points]

    def legend(self, *entries):
        for index, (words, colour, dashes) in enumerate(entries):
            x, y = self.left + 145 * (index % 2), self.bottom + 58 + 17 * (index // 2)
            self.parts.append(line(x, y - 4, x + 26, y - 4, colour, 4, dashes))
            self.parts.append(text(x + 32, y, words, 'start', 11))


def even_ticks(groups):
    """From 0 in steps of 0.2, past 1 and past every value."""
    most = max(1, *(value for values in groups for value in values))
    return [0.2 * index for index in range(int(most / 0.2) + 2)]


def power_ticks(values):
    """1, 2 and 5 times powers of ten, around all values."""
    ticks = [digit * 10.0 ** power for power in range(-3, 6) for digit in (1, 2, 5)]
    first = max(index for index, tick in enumerate(ticks) if tick <= min(values))
    last = min(index for index, tick in enumerate(ticks) if tick >= max(values))
    return ticks[first:last + 1]


def size_name(size):
    for unit, shift in (('GiB', 30), ('MiB', 20), ('KiB', 10)):
        if size >> shift and size % (1 << shift) == 0:
            return f'{size >> shift} {unit}'
    return str(size)


def ratios(place, title, peer, names, caption, groups, colours, target):
    """Bars of the peer's time over ours; colours tells what each bar of a group is."""
    panel = Panel(*place, title, f'time of {peer} / ours: above 1 ours is quicker', names, caption, even_ticks(groups))
    panel.bars(groups, list(colours.values()), target)
    panel.legend(*((words, colour, '') for words, colour in colours.items()), ('target', RED, '6 4'))
    return panel


def curves(place, title, unit, sizes, caption, named):
    """Curves over sizes; named tells each one's values, colour and dashes."""
    ticks = power_ticks([value for values, *_ in named.values() for value in values])
    panel = Panel(*place, title, unit, [size_name(size) for size in sizes], caption, ticks, logarithmic=True)
    for values, *style in named.values():
        panel.curve(values, *style)
    panel.legend(*((words, *style) for words, (_, *style) in named.items()))
    return panel


def copies(run, place, title, caption, names, wanted):
    groups = [[run.find(operation=name, **one).ratio for name in ('read', 'write')] for one in wanted]
    return ratios(place, title, 'memcpy', names, caption, groups, {'read': BLUE, 'write': ORANGE}, 0.9)


def by_count(run):
    wanted = [{'series': 'fixed', 'bytes': count * 512, 'image_size': 1 << 20} for count in COUNTS]
    return copies(run, (0, 0), 'Reads and writes, image of 1 MiB', 'sectors (the target is for 128)', COUNTS, wanted)


def by_distance(run):
    wanted = [{'case': f'128 sectors, distance {distance}'} for distance in DISTANCES]
    caption = 'bytes from the start of a page to the buffer'
    return copies(run, (2, 1), '128 sectors, by the buffer’s place', caption, DISTANCES, wanted)


def by_image_size(run, column, operation):
    def times(series, side):
        found = [run.find(series=series, operation=operation, bytes=MOST, image_size=size) for size in IMAGE_SIZES]
        return [getattr(one, side) / 1e3 for one in found]

    named = {
        'ours, one place': (times('fixed', 'ours'), BLUE, ''),
        'memcpy, one place': (times('fixed', 'peer'), ORANGE, '6 4'),
        'ours, scattered': (times('scattered', 'ours'), GREEN, ''),
        'memcpy, scattered': (times('scattered', 'peer'), RED, '6 4'),
    }
    title = f'{operation.capitalize()} of 128 sectors, by image size'
    return curves((column, 0), title, 'µs for one call', IMAGE_SIZES, 'image', named)


def checksums(run):
    def speeds(peer, side):
        return [size / getattr(run.find(series='crc32', bytes=size, peer=peer), side) for size in CHECKSUM_SIZES]

    named = {
        'ours': (speeds('byte table', 'ours'), BLUE, ''),
        'byte table in Rust': (speeds('byte table', 'peer'), ORANGE, '6 4'),
        'zlib': (speeds('zlib', 'peer'), GREEN, '2 4'),
    }
    return curves((0, 1), 'CRC-32', 'GB/s', CHECKSUM_SIZES, 'bytes', named)


def openings(run):
    groups = [[run.find(series='opening', case=case).ratio] for case in OPENINGS]
    title, colours = 'Opening 64 candidates', {'ratio': BLUE}
    return ratios((1, 1), title, 'the Rust program', OPENINGS, 'candidates', groups, colours, 1)


def main():
    if len(sys.argv) != 2:
        sys.exit(__doc__)
    run = Run(sys.argv[1])
    panels = [by_count(run), by_image_size(run, 1, 'read'), by_image_size(run, 2, 'write'),
              checksums(run), openings(run), by_distance(run)]
    parts = [part for panel in panels for part in panel.parts]
    head = f'<svg xmlns="http://www.w3.org/2000/svg" viewBox="0 0 {WIDTH} {HEIGHT}" role="img" {FONT}>'
    ground = f'<title>How quick Ondristela is beside programs that do the same work</title><rect width="{WIDTH}" height="{HEIGHT}" fill="white"/>'
    PLOT.write_text('\n'.join([head, ground, *parts, '</svg>']) + '\n')


if __name__ == '__main__':
    main()
