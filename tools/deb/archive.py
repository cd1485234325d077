"""The files of a package, by hand: tar, xz, gz, ar. No byte depends on the machine: nothing is compressed here, since
each release of a library compresses in its own way. The program comes compressed, in blocks that are copied."""

import struct
import zlib

BLOCK = 512
CHUNK = 1 << 16
CRC64 = 4  # the kind of check that `xz` writes by itself


def field(value, width):
    return b"%0*o\0" % (width - 1, value)


def entry(path, mode, size, time, kind=b"0", link=""):
    """A header of tar, in the form of POSIX 1988; the owner is root."""
    name, prefix = path.encode(), b""
    if len(name) > 100:
        cut = name.rindex(b"/", 0, 156)
        prefix, name = name[:cut], name[cut + 1:]
    head = struct.pack("100s8s8s8s12s12s8sc100s8s32s32s8s8s155s12x", name, field(mode, 8), field(0, 8), field(0, 8),
                       field(size, 12), field(time, 12), b" " * 8, kind, link.encode(), b"ustar\00000", b"root", b"root",
                       field(0, 8), field(0, 8), prefix)
    return head[:148] + b"%06o\0 " % sum(head) + head[156:]


def padding(size, unit):
    return b"\0" * (-size % unit)


def crc64_table():
    table = []
    for value in range(256):
        for _ in range(8):
            value = value >> 1 ^ (0xC96C5795D7870F42 if value & 1 else 0)
        table.append(value)
    return table


TABLE = crc64_table()


def crc64(data):
    value = 0xFFFFFFFFFFFFFFFF
    for byte in data:
        value = TABLE[(value ^ byte) & 255] ^ value >> 8
    return value ^ 0xFFFFFFFFFFFFFFFF


def crc32(data):
    return struct.pack("<I", zlib.crc32(data))


def number(value):
    """A number as xz writes it: seven bits a byte, the lowest first."""
    found = b""
    while value > 127:
        found, value = found + bytes([value & 127 | 128]), value >> 7
    return found + bytes([value])


def read_number(data, at):
    value, shift = 0, 0
    while True:
        byte = data[at]
        value, shift, at = value | (byte & 127) << shift, shift + 7, at + 1
        if byte < 128:
            return value, at


class Xz:
    """One stream of xz: blocks of bytes as they are, and blocks of other streams."""

    def __init__(self):
        flags = bytes([0, CRC64])
        self.flags, self.sizes = flags, []
        self.bytes = b"\xfd7zXZ\0" + flags + crc32(flags)

    def plain(self, data):
        """A block of chunks that are not compressed."""
        if not data:
            return
        head = bytes([2, 0, 0x21, 1, 8]) + bytes(3)  # 12 bytes with the sum; one filter, LZMA2; its window is 64 KiB
        chunks = b""
        for at in range(0, len(data), CHUNK):
            part = data[at:at + CHUNK]
            chunks += bytes([2 if at else 1]) + struct.pack(">H", len(part) - 1) + part
        body = head + crc32(head) + chunks + b"\0"
        self.add(body + padding(len(body), 4) + struct.pack("<Q", crc64(data)), len(body) + 8, len(data))

    def add(self, block, unpadded, size):
        self.bytes += block
        self.sizes.append((unpadded, size))

    def blocks_of(self, stream):
        """The blocks of a file of one stream that `xz` made; how many bytes they hold."""
        if stream[:8] != b"\xfd7zXZ\0" + self.flags or stream[-2:] != b"YZ":
            raise ValueError("it is not one stream of xz with its usual check")
        index = len(stream) - 12 - (struct.unpack("<I", stream[-8:-4])[0] + 1) * 4
        count, at = read_number(stream, index + 1)
        place, held = 12, 0
        for _ in range(count):
            unpadded, at = read_number(stream, at)
            size, at = read_number(stream, at)
            end = place + unpadded + -unpadded % 4
            self.add(stream[place:end], unpadded, size)
            place, held = end, held + size
        if place != index:
            raise ValueError("its index does not fit its blocks")
        return held

    def end(self):
        index = b"\0" + number(len(self.sizes)) + b"".join(number(one) + number(size) for one, size in self.sizes)
        index += padding(len(index), 4)
        index += crc32(index)
        foot = struct.pack("<I", len(index) // 4 - 1) + self.flags
        return self.bytes + index + crc32(foot) + foot + b"YZ"


class Packed:
    """A file that is there as a stream of xz."""

    def __init__(self, stream):
        self.stream, self.size = stream, Xz().blocks_of(stream)


def tar_xz(entries, time):
    """A tar in xz: of each path its mode, and its bytes, None for a folder."""
    out, plain = Xz(), b""
    for path, (mode, content) in sorted(entries.items()):
        if content is None:
            plain += entry(f"./{path}/" if path else "./", mode, 0, time, b"5")
        elif isinstance(content, Packed):
            out.plain(plain + entry(f"./{path}", mode, content.size, time))
            plain = padding(out.blocks_of(content.stream), BLOCK)
        else:
            plain += entry(f"./{path}", mode, len(content), time) + content + padding(len(content), BLOCK)
    out.plain(plain + bytes(2 * BLOCK))
    return out.end()


def gz(data):
    """A gz of blocks that are not compressed; it says `best`, which Debian asks for."""
    out = b"\x1f\x8b\x08\0\0\0\0\0\x02\x03"
    parts = [data[at:at + 65535] for at in range(0, len(data), 65535)] or [b""]
    for part in parts:
        out += struct.pack("<BHH", part is parts[-1], len(part), len(part) ^ 0xFFFF) + part
    return out + crc32(data) + struct.pack("<I", len(data) & 0xFFFFFFFF)


def ar(members, time):
    out = b"!<arch>\n"
    for name, data in members:
        out += b"%-16s%-12d%-6d%-6d%-8s%-10d`\n" % (name.encode(), time, 0, 0, b"100644", len(data))
        out += data + b"\n" * (len(data) % 2)
    return out
