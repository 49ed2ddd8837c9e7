"""What the program leaves: the one form of an image as a HEX text (Intel HEX), files, and lines on the two streams."""
import re


def record(address, kind, data):
    """A line of a HEX text (Intel HEX)."""
    text = bytes([len(data), address >> 8, address & 0xFF, kind, *data])
    return f":{(text + bytes([-sum(text) & 0xFF])).hex().upper()}\n"


def hex_text(image):
    """The HEX text of an image, the bytes by their addresses. A record of type 04 stands before those behind a multiple of 65,536."""
    runs, base, lines = [], 0, []
    for address in sorted(image):
        if not runs or address != runs[-1][0] + len(runs[-1][1]) or len(runs[-1][1]) == 16 or address % 65536 == 0:
            runs.append((address, []))
        runs[-1][1].append(image[address])
    for start, data in runs:
        if start // 65536 != base:
            base = start // 65536
            lines.append(record(0, 4, [base >> 8, base & 0xFF]))
        lines.append(record(start % 65536, 0, data))
    return "".join([*lines, record(0, 1, [])])


def image_of(text):
    """The bytes of a HEX text by their addresses, none where a line is no record of data or the last one."""
    image, base = {}, 0
    for line in text.splitlines():
        found = re.fullmatch(r":(..)(....)0([014])((?:..)*)..", line)
        if not found:
            return {}
        data = bytes.fromhex(found[4])
        if found[3] == "4":
            base = int.from_bytes(data) << 16
        else:
            image |= enumerate(data, base + int(found[2], 16))
    return image


def is_in_one_form(text):
    """Whether a file is in the one form that an image has as a HEX text: records of 16 bytes by rising address, in upper case."""
    text = text.decode("latin-1")
    return text != "" and text == hex_text(image_of(text))


def files_of(folder):
    """The bytes of all files below a folder by their names there."""
    return {path.relative_to(folder).as_posix(): path.read_bytes() for path in folder.rglob("*") if path.is_file()}
