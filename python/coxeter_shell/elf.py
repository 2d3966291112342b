"""What is written in the file of a program of Linux. The build backend loads this file alone, so it imports nothing of the package."""
import re
import struct

COMMENT, NEEDED, X86_64 = b".comment", 0x6FFFFFFE, 62


def machine(data):
    """The number of the processor that an ELF file of 64 bits is for, or None."""
    is_elf = data[:6] == b"\x7fELF\x02\x01" and len(data) >= 64
    return struct.unpack_from("<H", data, 0x12)[0] if is_elf else None


def sections(data):
    """The sections of an ELF file of 64 bits: for each its name, type, bytes and linked section. A file that is none has no section,
    and what is cut off is missing."""
    found = []
    if machine(data) is not None:
        (start,), (size, count, names) = struct.unpack_from("<Q", data, 0x28), struct.unpack_from("<HHH", data, 0x3A)
        for number in range(count if size >= 64 else 0):
            head = data[start + number * size : start + number * size + 64]
            if len(head) == 64:
                name, kind, _, _, offset, length, link = struct.unpack_from("<IIQQQQI", head)
                found.append((name, kind, data[offset : offset + length], link))
        texts = found[names][2] if names < len(found) else b""
        found = [(text(texts, name), *rest) for name, *rest in found]
    return found


def text(texts, start):
    """The text that begins there in a section of texts."""
    return texts[start : texts.find(b"\0", start)] if 0 <= start < len(texts) else b""


def logic(data):
    """The identity of the logic that a program was proved in, 64 digits of base 16, which the toolchain writes into the section
    `.comment` of what it has proved. None where no such text is there."""
    for name, _, content, _ in sections(data):
        found = re.search(rb"(?:^|\0)rattle logic=([0-9a-f]{64})(?:\0|$)", content) if name == COMMENT else None
        if found:
            return found.group(1).decode()
    return None


def glibc(data):
    """The least version of the GNU C library that a program asks for, as (2, 34), or None."""
    listed, versions = sections(data), []
    for _, kind, content, link in listed:
        at = 0 if kind == NEEDED and link < len(listed) else len(content)
        while at + 16 <= len(content):
            count, _, first, following = struct.unpack_from("<HIII", content, at + 2)
            place = at + first
            for _ in range(count):
                if place + 16 > len(content):
                    break
                name, step = struct.unpack_from("<II", content, place + 8)
                found = re.fullmatch(rb"GLIBC_(\d+)\.(\d+)(\.\d+)?", text(listed[link][2], name))
                if found:
                    versions.append((int(found.group(1)), int(found.group(2))))
                place += step
                if not step:
                    break
            at += following or len(content)
    return max(versions, default=None)
