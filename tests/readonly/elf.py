"""ELF files of 64 bits, least byte first, and archives of them: sections with their bytes, symbols, relocations."""
import struct

RELOCATABLE = 1                                # e_type
PROGBITS, SYMTAB, RELA = 1, 2, 4               # sh_type
WRITE, ALLOC, EXEC = 1, 2, 4                   # sh_flags


class Bad(Exception):
    """A file that is not of the form that is read here."""


class Section:
    def __init__(self, name, kind, flags, data, link, info):
        self.name, self.kind, self.flags, self.data, self.link, self.info = name, kind, flags, data, link, info
        self.relocations = []                  # (offset, index of the target's section)


class File:
    """One ELF file: `relocatable`, `sections`, `symbols` (name, index of its section)."""

    def __init__(self, name, data):
        self.name = name
        if data[:6] != b"\x7fELF\x02\x01":
            raise Bad(f"{name} is no ELF file of 64 bits, least byte first")
        self.relocatable = struct.unpack_from("<H", data, 16)[0] == RELOCATABLE
        at, (size, count, names) = struct.unpack_from("<Q", data, 40)[0], struct.unpack_from("<HHH", data, 58)
        if not count:
            raise Bad(f"{name} has no table of sections")
        rows = [struct.unpack_from("<IIQQQQII", data, at + size * i) for i in range(count)]
        held = [data[row[4]:row[4] + row[5]] if row[1] != 8 else b"" for row in rows]   # 8: no bytes in the file
        self.sections = [Section(text(held[names], row[0]), row[1], row[2], part, row[6], row[7]) for row, part in zip(rows, held)]
        self.symbols = []
        for section in self.sections:
            if section.kind == SYMTAB:
                for entry in range(0, len(section.data), 24):
                    word, _, _, place = struct.unpack_from("<IBBH", section.data, entry)
                    self.symbols.append((text(self.sections[section.link].data, word), place))
        for section in self.sections:
            if section.kind == RELA and section.info < count:
                for entry in range(0, len(section.data), 24):
                    offset, about = struct.unpack_from("<QQ", section.data, entry)
                    place = self.symbols[about >> 32][1] if about >> 32 < len(self.symbols) else 0
                    self.sections[section.info].relocations.append((offset, place))


def text(data, at):
    return data[at:data.index(b"\0", at)].decode()


def members(name, data):
    """The files of an archive, in order; a file that is none by itself."""
    if data[:8] != b"!<arch>\n":
        return [(name, data)]
    found, at, long_names = [], 8, b""
    while at + 60 <= len(data):
        label, size = data[at:at + 16].decode().rstrip(), int(data[at + 48:at + 58])
        body = data[at + 60:at + 60 + size]
        if label == "//":
            long_names = body
        elif label not in ("/", "/SYM64/"):
            if label[0] == "/":
                start = int(label[1:])
                label = long_names[start:long_names.index(b"\n", start)].decode()
            found.append((f"{name}({label.rstrip('/')})", body))
        at += 60 + size + size % 2
    if not found:
        raise Bad(f"{name} is an archive of nothing")
    return found


def files(path):
    with open(path, "rb") as source:
        return [File(name, data) for name, data in members(path, source.read())]
