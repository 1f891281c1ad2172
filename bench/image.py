"""ELF files of one segment."""
import struct

BASE = 0x10000
HEADERS = 52 + 32  # the ELF header and one program header


def write(file, code):
    """Writes an image of these instruction words. They stand behind the headers, which are in memory too."""
    size = HEADERS + 4 * len(code)
    header = struct.pack("<4s12BHHIIIIIHHHHHH", b"\x7fELF", 1, 1, 1, *[0] * 9,
                         2, 243, 1, BASE + HEADERS, 52, 0, 0, 52, 32, 1, 0, 0, 0)
    segment = struct.pack("<8I", 1, 0, BASE, BASE, size, size, 7, 0x1000)
    with open(file, "wb") as image:
        image.write(header + segment + struct.pack(f"<{len(code)}I", *code))
