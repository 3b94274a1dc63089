"""Makes plates: PVR version 3 and KTX version 1 files around given data."""
import struct


def pvr(width, height, data, flags=0, pixel_format=3, metadata=b"", depth=1, surfaces=1, faces=1, levels=1):
    """A PVR file; its flags are 0 and its format is RGBA at 4bpp unless others are given."""
    head = struct.pack("<4sIQ9I", b"PVR\3", flags, pixel_format, 0, 0, height, width, depth, surfaces, faces, levels, len(metadata))
    return head + metadata + data


def ktx_head(width, height, internal_format=0x8C02, key_values=b"", faces=1, levels=1):
    """What stands before the levels of a KTX file. The base format is GL_RGBA."""
    fields = 0, 1, 0, internal_format, 0x1908, width, height, 0, 0, faces, levels, len(key_values)
    return struct.pack("<12s4s12I", b"\xABKTX 11\xBB\r\n\x1A\n", b"\1\2\3\4", *fields) + key_values


def ktx(width, height, data, internal_format=0x8C02, key_values=b"", size=None, faces=1):
    """A KTX file, likewise, with one level. Its size word is the data's length unless another is given."""
    return ktx_head(width, height, internal_format, key_values, faces) + struct.pack("<I", len(data) if size is None else size) + data


def pvr_levels(width, height, datas, levels=None, **chosen):
    """A PVR file with the data of all its levels, the largest first, one after another. It says as many unless another number is given."""
    return pvr(width, height, b"".join(datas), levels=len(datas) if levels is None else levels, **chosen)


def ktx_levels(width, height, datas, levels=None, sizes=None, **chosen):
    """A KTX file, likewise: each level behind its size word, and padded to four bytes. The size words are the lengths unless others are given."""
    file = ktx_head(width, height, levels=len(datas) if levels is None else levels, **chosen)
    for data, size in zip(datas, sizes or map(len, datas)):
        file += struct.pack("<I", size) + data + bytes(-len(data) % 4)
    return file


def key_value(key, value):
    """One key with its value, as KTX lays them: their length, the key and the value with a zero byte each, and zero bytes to a multiple of four."""
    pair = key + b"\0" + value + b"\0"
    return struct.pack("<I", len(pair)) + pair + bytes(-len(pair) % 4)
