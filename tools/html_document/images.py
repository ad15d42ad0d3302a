"""The size of an image, from the first bytes of its file: PNG, GIF and JPEG."""
import struct


def jpeg_size(data):
    """Of a JPEG: its parts are walked up to the one with the size."""
    at = 2
    while at + 9 < len(data) and data[at] == 0xff:
        mark, length = data[at + 1], struct.unpack('>H', data[at + 2:at + 4])[0]
        if 0xc0 <= mark <= 0xcf and mark not in (0xc4, 0xc8, 0xcc):
            height, width = struct.unpack('>HH', data[at + 5:at + 9])
            return width, height
        at += 2 + length
    return None


def size_of(path):
    """The width and the height in px, or None."""
    try:
        data = path.read_bytes()[:1 << 18]
    except OSError:
        return None
    if data.startswith(b'\x89PNG\r\n\x1a\n') and len(data) >= 24:
        return struct.unpack('>II', data[16:24])
    if data[:6] in (b'GIF87a', b'GIF89a') and len(data) >= 10:
        return struct.unpack('<HH', data[6:10])
    return jpeg_size(data) if data.startswith(b'\xff\xd8') else None
