"""Pictures of a screen in few octets: at most 256 colours, by a palette."""
import struct
import zlib


def unfiltered(rows, width, depth):
    """The rows' octets, without the filters of PNG."""
    size, before, whole = width * depth, bytearray(width * depth), []
    for at in range(0, len(rows), size + 1):
        kind, row = rows[at], bytearray(rows[at + 1:at + 1 + size])
        for n in range(size):
            left, up = row[n - depth] if n >= depth else 0, before[n]
            if kind == 1:
                row[n] = (row[n] + left) & 255
            elif kind == 2:
                row[n] = (row[n] + up) & 255
            elif kind == 3:
                row[n] = (row[n] + (left + up) // 2) & 255
            elif kind == 4:
                corner = before[n - depth] if n >= depth else 0
                guess = left + up - corner
                near = min((abs(guess - left), 0, left), (abs(guess - up), 1, up), (abs(guess - corner), 2, corner))
                row[n] = (row[n] + near[2]) & 255
        whole.append(row)
        before = row
    return whole


def chunk(kind, octets):
    return struct.pack(">I", len(octets)) + kind + octets + struct.pack(">I", zlib.crc32(kind + octets))


def small(png):
    """The picture with so many bits of each colour that there are at most 256."""
    at, data, head = 8, b"", b""
    while at < len(png):
        length, kind = struct.unpack(">I4s", png[at:at + 8])
        part = png[at + 8:at + 8 + length]
        head, data = (part if kind == b"IHDR" else head), (data + part if kind == b"IDAT" else data)
        at += 12 + length
    width, height, _, colours = struct.unpack(">IIBB", head[:10])
    depth = {2: 3, 6: 4}[colours]
    rows = [[bytes(row[n:n + 3]) for n in range(0, len(row), depth)] for row in unfiltered(zlib.decompress(data), width, depth)]
    for bits in range(8, 0, -1):
        step = 1 << (8 - bits)
        rounded = {it: bytes(min(round(octet / step) * step, 255) for octet in it) for it in {it for row in rows for it in row}}
        palette = sorted(set(rounded.values()))
        if len(palette) <= 256:
            break
    place = {it: palette.index(rounded[it]) for it in rounded}
    packed = zlib.compress(b"".join(b"\0" + bytes(place[it] for it in row) for row in rows), 9)
    return (png[:8] + chunk(b"IHDR", struct.pack(">IIBBBBB", width, height, 8, 3, 0, 0, 0)) + chunk(b"PLTE", b"".join(palette))
            + chunk(b"IDAT", packed) + chunk(b"IEND", b""))
