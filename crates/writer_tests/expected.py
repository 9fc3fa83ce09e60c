#!/usr/bin/env python3
# Makes src/expected.rt: the bytes of drafts by the rules of the format, from the pictures below, which stand in
# src/pictures.rt too. With libtiff and Netpbm installed, `expected.py check` has each draft, behind a header, read by
# tiffinfo and tifftopnm, and compares the pixels.
import os, struct, subprocess, sys, tempfile

GREY = [[1, 2, 3], [4, 5, 6]]
LINES = [
    [1, 0, 1, 1, 0, 0, 0, 1, 0, 1],
    [0, 1, 1, 0, 1, 0, 0, 0, 0, 0],
    [1, 1, 1, 1, 0, 1, 0, 0, 1, 1],
]
FOUR = [[3, 0, 15, 8, 5], [1, 2, 4, 7, 6], [14, 13, 11, 9, 10]]
RGB = [[(12 * x, 12 * y, 6 * x + y) for x in range(20)] for y in range(20)]


def cropped(rows, x, y, w, h):
    return [row[x:x + w] for row in rows[y:y + h]]


def turned(rows, k):
    transposed = lambda r: [list(c) for c in zip(*r)]
    mirrored = lambda r: [row[::-1] for row in r]
    flipped = lambda r: r[::-1]
    return {
        1: lambda r: r,
        2: mirrored,
        3: lambda r: flipped(mirrored(r)),
        4: flipped,
        5: transposed,
        6: lambda r: mirrored(transposed(r)),             # a quarter to the right
        7: lambda r: flipped(mirrored(transposed(r))),
        8: lambda r: flipped(transposed(r)),              # a quarter to the left
    }[k](rows)


def packed(row, bits):
    samples = [s for pixel in row for s in (pixel if isinstance(pixel, tuple) else (pixel,))]
    text = ''.join(format(s, '0%db' % bits) for s in samples)
    text += '0' * (-len(text) % 8)
    return bytes(int(text[i:i + 8], 2) for i in range(0, len(text), 8))


def segments(rows, bits, tile, strip):
    zero = (0, 0, 0) if isinstance(rows[0][0], tuple) else 0
    out = []
    if tile:
        w, h = tile
        for top in range(0, len(rows), h):
            for left in range(0, len(rows[0]), w):
                part = []
                for y in range(top, top + h):
                    row = [rows[y][x] if y < len(rows) and x < len(rows[0]) else zero for x in range(left, left + w)]
                    part.append(packed(row, bits))
                out.append(b''.join(part))
    else:
        for top in range(0, len(rows), strip):
            out.append(b''.join(packed(row, bits) for row in rows[top:top + strip]))
    return out


def draft(order, place, rows, photometric, bits, tile=None, strip=None):
    e = '<' if order == 'II' else '>'
    width, height = len(rows[0]), len(rows)
    colours = 3 if photometric == 2 else 1
    parts = segments(rows, bits, tile, strip)
    SHORT, LONG, RATIONAL = 3, 4, 5
    sizes = {SHORT: 2, LONG: 4, RATIONAL: 8}
    form = {SHORT: 'H', LONG: 'I', RATIONAL: 'II'}
    offsets = [0] * len(parts)
    counts = [len(p) for p in parts]
    fields = {
        256: (LONG, [width]), 257: (LONG, [height]), 258: (SHORT, [bits] * colours), 259: (SHORT, [1]),
        262: (SHORT, [photometric]), 277: (SHORT, [colours]), 282: (RATIONAL, [(1, 1)]), 283: (RATIONAL, [(1, 1)]),
        296: (SHORT, [1]),
    }
    if tile:
        fields.update({322: (LONG, [tile[0]]), 323: (LONG, [tile[1]]), 324: (LONG, offsets), 325: (LONG, counts)})
    else:
        fields.update({273: (LONG, offsets), 278: (LONG, [min(strip, height)]), 279: (LONG, counts)})

    def values(kind, vs):
        return b''.join(struct.pack(e + form[kind], *(v if isinstance(v, tuple) else (v,))) for v in vs)

    head = 6 + 12 * len(fields)
    start = place + head + sum(sizes[k] * len(vs) for k, vs in fields.values() if sizes[k] * len(vs) > 4)
    for i in range(len(parts)):
        offsets[i] = start + sum(counts[:i])
    directory, outer = struct.pack(e + 'H', len(fields)), b''
    for tag in sorted(fields):
        kind, vs = fields[tag]
        data = values(kind, vs)
        directory += struct.pack(e + 'HHI', tag, kind, len(vs))
        if len(data) <= 4:
            directory += data.ljust(4, b'\0')
        else:
            directory += struct.pack(e + 'I', place + head + len(outer))
            outer += data
    return directory + struct.pack(e + 'I', 0) + outer + b''.join(parts)


def header(order, place):
    return (b'II' + struct.pack('<HI', 42, place)) if order == 'II' else (b'MM' + struct.pack('>HI', 42, place))


DRAFTS = {
    # name: (order, place, rows of what is seen, photometric, bits, layout)
    'grey': ('II', 512, GREY, 1, 8, dict(strip=2)),
    'grey_strips': ('MM', 512, GREY, 1, 8, dict(strip=1)),
    'lines': ('MM', 1024, turned(cropped(LINES, 1, 0, 9, 3), 6), 0, 1, dict(strip=4)),
    'lines_rows': ('II', 512, turned(cropped(LINES, 0, 1, 10, 2), 2), 0, 1, dict(strip=7)),
    'four': ('II', 512, turned(FOUR, 3), 1, 4, dict(strip=2)),
    'rgb': ('II', 512, RGB, 2, 8, dict(tile=(16, 16))),
    'rgb_turned': ('MM', 4096, turned(cropped(RGB, 2, 1, 18, 17), 8), 2, 8, dict(tile=(16, 32))),
}


def fnv(data):
    h = 0xcbf29ce484222325
    for b in data:
        h = (h ^ b) * 0x100000001b3 % 2 ** 64
    return h


def sectors(data):
    return [data[i:i + 512] for i in range(0, len(data), 512)]


# How many pixels of a picture of RGB in tiles each sector asks for.
def asked(rows, tile, head, size):
    w, h = tile
    across = -(-len(rows[0]) // w)
    out = []
    for s in range(0, size, 512):
        seen = set()
        for i in range(max(s, head), min(s + 512, size)):
            k, inner = divmod(i - head, w * h * 3)
            y, b = divmod(inner, w * 3)
            x, y = k % across * w + b // 3, k // across * h + y
            if x < len(rows[0]) and y < len(rows):
                seen.add((x, y))
        out.append(len(seen))
    return out


def check():
    for name, (order, place, rows, photometric, bits, layout) in DRAFTS.items():
        block = draft(order, place, rows, photometric, bits, **layout)
        with tempfile.TemporaryDirectory() as t:
            path = os.path.join(t, 'x.tif')
            with open(path, 'wb') as f:
                f.write(header(order, place).ljust(place, b'\0') + block)
            subprocess.run(['tiffinfo', path], check=True, stdout=subprocess.DEVNULL)
            out = subprocess.run(['tifftopnm', path], check=True, stdout=subprocess.PIPE, stderr=subprocess.DEVNULL).stdout
        # the pixels are the last bytes of a Netpbm file: eight to a byte if bilevel, and else a byte a sample
        want = b''.join(packed(row, 1 if out[:2] == b'P4' else 8) for row in rows)
        got = out[len(out) - len(want):]
        assert got == want, name
        print(name, len(block), 'bytes: read as the same pixels')


def text(data):
    return 'b"' + ''.join('\\x%02x' % b for b in data) + '"'


def main():
    lines = ['// Drafts by the rules of the format, made by expected.py and not by this code.']
    lines += ['', '// A sector of a draft: its length, its FNV-1a hash, and how many pixels it asks for.', '#[derive(Clone, Copy)]']
    lines += ['pub struct Sector {', '    pub length: usize,', '    pub hash: u64,', '    pub asked: u32,', '}']
    for name, (order, place, rows, photometric, bits, layout) in DRAFTS.items():
        block = draft(order, place, rows, photometric, bits, **layout)
        if len(block) <= 512:
            lines += ['', 'pub fn %s() -> &\'static [u8] {' % name, '    ' + text(block), '}']
        else:
            parts = sectors(block)
            head = len(block) - sum(map(len, segments(rows, bits, layout.get('tile'), layout.get('strip'))))
            asks = asked(rows, layout['tile'], head, len(block))
            lines += ['', '#[rattlefmt::skip]', 'pub const %s: [Sector; %d] = [' % (name.upper(), len(parts))]
            lines += ['    Sector { length: %d, hash: 0x%016x, asked: %d },' % (len(p), fnv(p), n) for p, n in zip(parts, asks)] + ['];']
    with open(os.path.join(os.path.dirname(os.path.abspath(__file__)), 'src', 'expected.rt'), 'w') as f:
        f.write('\n'.join(lines) + '\n')


if sys.argv[1:] == ['check']:
    check()
else:
    main()
