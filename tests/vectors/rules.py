"""The rules for opening, for writing headers and for the sector map (docs/RULES.md), written from their text."""
import zlib


def number(h, offset, size):
    return int.from_bytes(h[offset:offset + size], 'big')


def is_host_size(host_size):
    return host_size % 512 == 0 and 262_656 <= host_size <= 2**50


def is_sector_size(sector_size):
    return sector_size in (512, 1_024, 2_048, 4_096)


def is_version(magic, version):
    return version in {b'VERA': (2, 3, 4, 5), b'TRUE': (4, 5)}[magic]


def is_multiple(size, sector_size):
    """Whether it is one; 0 has no multiple but itself."""
    return size % sector_size == 0 if sector_size else size == 0


def is_data_area(is_hidden, host_size, data_start, data_size, sector_size):
    """The last header line, with E taken as V, for any Z."""
    return (data_size >= 512 and all(is_multiple(size, sector_size) for size in (host_size, data_start, data_size))
            and (data_start >= 131_072 if is_hidden else data_start == 131_072)
            and data_start + data_size <= host_size - 131_072)


def is_header(h):
    return (h[64:68] in (b'VERA', b'TRUE')
            and zlib.crc32(h[256:512]) == number(h, 72, 4)
            and zlib.crc32(h[64:252]) == number(h, 252, 4))


def first_broken(h, code, host_size):
    """The number of the first line that a header breaks, None where it keeps them all."""
    is_vera, is_hidden = h[64:68] == b'VERA', code in (1, 3)
    flags, sector_size = number(h, 124, 4), number(h, 128, 4)
    hidden_size, data_size = number(h, 92, 8), number(h, 100, 8)
    data_start, encrypted_size = number(h, 108, 8), number(h, 116, 8)
    lines = [
        (5, is_version(h[64:68], number(h, 68, 2))),
        (6, flags & 0xFFFF_FFFC == 0 and not (is_vera and any(h[76:92] + h[132:252]))),
        (7, flags & 3 == 0),
        (8, is_sector_size(sector_size)),
        (9, hidden_size != 0 and hidden_size == data_size if is_hidden else hidden_size == 0),
        (10, encrypted_size == data_size
         and is_data_area(is_hidden, host_size, data_start, data_size, sector_size)),
    ]
    return next((refusal for refusal, kept in lines if not kept), None)


def open_volume(host_size, codes, candidates):
    """A refusal number, or the layout: its nine numbers by name, in the order they are printed."""
    if not 1 <= len(codes) <= 64 or len(candidates) != 512 * len(codes):
        return 1
    if max(codes) > 3:
        return 2
    if not is_host_size(host_size):
        return 3
    refusals = []
    for index, code in enumerate(codes):
        h = candidates[512 * index:512 * index + 512]
        if not is_header(h):
            continue
        broken = first_broken(h, code, host_size)
        if broken is None:
            return {
                'host_size': host_size,
                'kind': code % 2,
                'magic': int(h[64:68] == b'TRUE'),
                'version': number(h, 68, 2),
                'min_program_version': number(h, 70, 2),
                'data_start': number(h, 108, 8),
                'data_size': number(h, 100, 8),
                'candidate': index,
                'sector_size': number(h, 128, 4),
            }
        refusals.append(broken)
    return refusals[0] if refusals else 4


def write_header(asked, output):
    """The answer to what is asked for, a refusal number or 'accepted', and the output as it is left."""
    magic, code, host_size, sector_size = asked['magic'], asked['code'], asked['host_size'], asked['sector_size']
    if (len(asked['salt']), len(asked['keys']), len(output)) != (64, 256, 512):
        return 1, output
    if magic not in (b'VERA', b'TRUE'):
        return 19, output
    if code > 3:
        return 2, output
    if not is_host_size(host_size):
        return 3, output
    if not is_version(magic, asked['version']):
        return 5, output
    if not is_sector_size(sector_size):
        return 8, output
    if not is_data_area(code in (1, 3), host_size, asked['data_start'], asked['data_size'], sector_size):
        return 10, output
    return 'accepted', new_header(asked)


def new_header(asked):
    """The header that is asked for, one field behind the other."""
    data_size = asked['data_size'].to_bytes(8, 'big')
    checked = b''.join([
        asked['magic'],
        asked['version'].to_bytes(2, 'big'),
        asked['min_program_version'].to_bytes(2, 'big'),
        zlib.crc32(asked['keys']).to_bytes(4, 'big'),
        bytes(16),  # reserved
        data_size if asked['code'] in (1, 3) else bytes(8),  # H
        data_size,  # V
        asked['data_start'].to_bytes(8, 'big'),  # O
        data_size,  # E
        bytes(4),  # flags
        asked['sector_size'].to_bytes(4, 'big'),  # Z
        bytes(120),  # reserved
    ])
    return asked['salt'] + checked + zlib.crc32(checked).to_bytes(4, 'big') + asked['keys']


def locate(code, host_size):
    """A header's offset, or the refusal, as text."""
    if code > 3:
        return 'refused 2'
    if not is_host_size(host_size):
        return 'refused 3'
    return str([0, 65_536, host_size - 131_072, host_size - 65_536][code])


def is_sound(layout):
    return (layout['kind'] in (0, 1) and is_host_size(layout['host_size']) and is_sector_size(layout['sector_size'])
            and is_data_area(layout['kind'] == 1, layout['host_size'], layout['data_start'], layout['data_size'],
                             layout['sector_size']))


def sector_count(layout):
    """A number, or the refusal as text; so too below."""
    return layout['data_size'] // 512 if is_sound(layout) else 'refused 11'


def host_sector(layout, user):
    if not is_sound(layout):
        return 'refused 11'
    return layout['data_start'] // 512 + user if user < sector_count(layout) else 'refused 16'


def user_sector(layout, host):
    if not is_sound(layout):
        return 'refused 11'
    first = layout['data_start'] // 512
    return host - first if host in range(first, first + sector_count(layout)) else 'refused 16'


def tweak_block(tweak):
    """The sixteen bytes of a tweak number, zeros for a refusal."""
    return tweak.to_bytes(16, 'little') if isinstance(tweak, int) else bytes(16)


def map_output(data):
    """What the map program prints for an input."""
    answer = open_volume(int.from_bytes(data[:8], 'big'), data[8:9], data[9:]) if len(data) == 521 else 1
    if isinstance(answer, int):
        return f'refused {answer}\n'
    first, sectors = answer['data_start'] // 512, answer['data_size'] // 512
    return (f"mark {['VERA', 'TRUE'][answer['magic']]}\n"
            f"version {answer['version']}\n"
            f"needs {answer['min_program_version']}\n"
            f"kind {['standard', 'hidden'][answer['kind']]}\n"
            f"host {answer['host_size']}\n"
            f"start {answer['data_start']}\n"
            f"size {answer['data_size']}\n"
            f"sectors {sectors}\n"
            f"first {first}\n"
            f"last {first + sectors - 1}\n")
