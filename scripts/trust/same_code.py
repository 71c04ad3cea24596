#!/usr/bin/env python3
# SPDX-License-Identifier: Apache-2.0
"""Compares assembly with the archive or object that the checker made: all that a linker takes of it.

  scripts/trust/same_code.py MADE FILE.s     MADE is libvhost_c.a of the checker, or an object

The machine; each section, with its type, flags, alignment and size of an entry; each symbol, with its type, binding, visibility, section, value
and size; and what each section has. Code is compared instruction by instruction, with its relocations and with what .eh_frame says of the
stack there, but for the padding between functions and before loops, of which assemblers choose forms of their own: a place in code is the
number of the instruction there. All else, notes too, is compared byte by byte with its relocations, but for tables of jumps, by which
instructions they go to. A function's labels have a number in the one and a name in the other, so that each number has to stand for one name,
and each name for one number. It prints the first difference of each section, and last how much was compared. Status 0 where both are the
same, 1 where not, 2 after wrong arguments. CC, OBJDUMP and AR name other tools.
"""
import os
import re
import struct
import subprocess
import sys
import tempfile
from dataclasses import dataclass, field

OBJDUMP = os.environ.get("OBJDUMP", "objdump")

# -- An ELF object of 64 bits in little-endian order: its sections, symbols and relocations, and what .eh_frame says of the stack --

SYMTAB, STRTAB, RELA, NOBITS = 2, 3, 4, 8
SECTION, FILE = 3, 4
EXECUTABLE = 4


@dataclass
class Section:
    name: str
    kind: int
    flags: int
    align: int
    entry: int
    size: int
    content: bytes
    link: int
    info: int
    # (offset, type, symbol, addend) of each
    relocations: list = field(default_factory=list)

    @property
    def is_code(self):
        return bool(self.flags & EXECUTABLE)


@dataclass
class Symbol:
    name: str
    kind: int
    binding: int
    visibility: int
    # of the section, or the number of a place that is none (0: it is not defined here)
    section: str
    value: int
    size: int


@dataclass
class Object:
    header: tuple
    sections: list
    symbols: list


def text_at(table, offset):
    return table[offset : table.index(b"\0", offset)].decode(errors="surrogateescape")


def read_sections(data):
    """The sections, by the table that the header names."""
    (table,) = struct.unpack_from("<Q", data, 40)
    size, count, of_names = struct.unpack_from("<HHH", data, 58)
    found, names = [], []
    for number in range(count):
        name, kind, flags, _, offset, length, link, info, align, entry = struct.unpack_from("<IIQQQQIIQQ", data, table + number * size)
        content = b"" if kind == NOBITS else data[offset : offset + length]
        names.append(name)
        found.append(Section("", kind, flags, align, entry, length, content, link, info))
    for it, name in zip(found, names):
        it.name = text_at(found[of_names].content, name)
    return found


def read_symbols(sections):
    """The symbols; one that stands for a section has that section's name."""
    found = []
    for table in sections:
        for at in range(0, table.size if table.kind == SYMTAB else 0, 24):
            name, info, other, number, value, size = struct.unpack_from("<IBBHQQ", table.content, at)
            section = sections[number].name if 0 < number < len(sections) else str(number)
            named = section if info & 15 == SECTION else text_at(sections[table.link].content, name)
            found.append(Symbol(named, info & 15, info >> 4, other, section, value, size))
    return found


def read(path):
    with open(path, "rb") as file:
        data = file.read()
    if data[:6] != b"\x7fELF\x02\x01":
        raise ValueError(f"{path} is no ELF object of 64 bits")
    sections = read_sections(data)
    symbols = read_symbols(sections)
    for table in (it for it in sections if it.kind == RELA):
        for offset, info, addend in struct.iter_unpack("<QQq", table.content):
            sections[table.info].relocations.append((offset, info & 0xFFFFFFFF, symbols[info >> 32], addend))
    kind, machine = struct.unpack_from("<HH", data, 16)
    (flags,) = struct.unpack_from("<I", data, 48)
    return Object((kind, machine, data[7], flags), sections, symbols)


class Reader:
    """Reads numbers of a record of .eh_frame, one behind the other."""

    def __init__(self, data, at, end):
        self.data, self.at, self.end = data, at, end

    def number(self, form):
        (value,) = struct.unpack_from(f"<{form}", self.data, self.at)
        self.at += struct.calcsize(form)
        return value

    def uleb(self):
        value, shift = 0, 0
        while True:
            byte = self.number("B")
            value |= (byte & 127) << shift
            shift += 7
            if byte < 128:
                return value

    def sleb(self):
        began = self.at
        value = self.uleb()
        bits = 7 * (self.at - began)
        return value - (1 << bits) if value >> (bits - 1) & 1 else value

    def block(self):
        length = self.uleb()
        self.at += length
        return self.data[self.at - length : self.at].hex()

    def text(self):
        found = text_at(self.data, self.at)
        self.at += len(found) + 1
        return found


# The instructions of a frame's description (DWARF 5, 7.24), with the forms of what stands behind each: a register or number, a number that is
# multiplied by the alignment of data, one with a sign, and a block. 0x2d is a window's save, and on aarch64 that the return address is signed.
WORDS = {
    0x05: ("offset", "uf"), 0x06: ("restore", "u"), 0x07: ("undefined", "u"), 0x08: ("same_value", "u"), 0x09: ("register", "uu"),
    0x0A: ("remember_state", ""), 0x0B: ("restore_state", ""), 0x0C: ("def_cfa", "uu"), 0x0D: ("def_cfa_register", "u"),
    0x0E: ("def_cfa_offset", "u"), 0x0F: ("def_cfa_expression", "b"), 0x10: ("expression", "ub"), 0x11: ("offset", "us"),
    0x12: ("def_cfa", "us"), 0x13: ("def_cfa_offset", "s"), 0x16: ("val_expression", "ub"), 0x2D: ("negate_ra_state", ""),
    0x2E: ("args_size", "u"),
}
ADVANCES = {0x02: "B", 0x03: "H", 0x04: "I"}


def frame_words(reader, code, data):
    """Each instruction, with how far it stands behind the function's beginning."""
    location, found = 0, []
    forms = {"u": reader.uleb, "f": lambda: reader.uleb() * data, "s": lambda: reader.sleb() * data, "b": reader.block}
    while reader.at < reader.end:
        byte = reader.number("B")
        high, low = byte & 0xC0, byte & 0x3F
        if high == 0x40:
            location += low * code
        elif high == 0x80:
            found.append((location, f"offset {low} {reader.uleb() * data}"))
        elif high == 0xC0:
            found.append((location, f"restore {low}"))
        elif byte in ADVANCES:
            location += reader.number(ADVANCES[byte]) * code
        elif byte:
            name, operands = WORDS[byte]
            found.append((location, " ".join([name, *(str(forms[it]()) for it in operands)])))
    return found


@dataclass
class Common:
    """What the records of several functions have in common."""

    said: str
    code: int
    data: int
    # the size of an address, by its encoding
    wide: str


def common_of(reader):
    version, augmentation = reader.number("B"), reader.text()
    code, data, register = reader.uleb(), reader.sleb(), reader.uleb()
    encoding = 0
    if augmentation.startswith("z"):
        beyond = reader.at + reader.uleb() + 1
        encoding = reader.number("B") if "R" in augmentation else 0
        reader.at = beyond
    begins = [text for _, text in frame_words(reader, code, data)]
    said = f"version {version} {augmentation} {encoding:#x} returns {register}: {', '.join(begins)}"
    return Common(said, code, data, "q" if encoding & 15 in (0, 4, 12) else "i")


def frames(section):
    """Of each function that .eh_frame describes its section, the place there, its size, what it has in common with others, and each
    instruction with its place in the function."""
    targets = {offset: (symbol, addend) for offset, _, symbol, addend in section.relocations}
    commons, at = {}, 0
    while at + 4 <= section.size:
        (length,) = struct.unpack_from("<I", section.content, at)
        reader = Reader(section.content, at + 4, at + 4 + length)
        here = reader.at
        owner = reader.number("I") if length else 0
        if length and not owner:
            commons[at] = common_of(reader)
        elif length:
            common = commons[here - owner]
            symbol, addend = targets[reader.at]
            reader.number(common.wide)
            size = reader.number(common.wide)
            if "z" in common.said.split(" ")[2]:
                reader.at += reader.uleb()
            yield symbol.section, symbol.value + addend, size, common.said, frame_words(reader, common.code, common.data)
        at += 4 + length


# -- What is compared --

# What only fills a gap, on x86-64 and aarch64.
PADDING = re.compile(r"^(data16 |cs )*(nop\w*\b.*|xchg +%ax,%ax)$")
RELOCATION = re.compile(r"^\s+[0-9a-f]+: (R_\w+)\s+(.*)$")
INSTRUCTION = re.compile(r"^\s*([0-9a-f]+):\t(.*?)\s*$")
# Where a jump goes, as objdump shows it, and a comment that has an address.
TARGET = re.compile(r"\b([0-9a-f]+) <.*>$")
COMMENT = re.compile(r"\s+# [0-9a-f]+ <.*>$")

# A table of jumps, as code names it, four bytes behind the place of that name. An entry has the distance from its table.
TABLE = re.compile(r"R_X86_64_PC32 (\.rodata.*?)([+-]0x[0-9a-f]+)$")
X86_64, PC32 = 62, 2

# What holds no part of the program but says where others are; and what an assembler makes in each object, empty or not.
OF_THE_FILE = (0, SYMTAB, STRTAB, RELA)
ALWAYS = (".text", ".data", ".bss")
# What LLVM's own assembler adds: which symbols have an address that counts, and once more what .note.gnu.property says.
OF_LLVM = (".llvm_addrsig", ".ARM.attributes")
FRAMES = ".eh_frame"

# A label that is numbered by its function, or named by it; and any other, which assembly.py gives the library's name.
OF_FUNCTION = re.compile(r"\.L(?:covretin_)?(BB|JTI|CPI)(\d+|_[0-9a-f]{8})_")
OTHER = ".Lcovretin_"


def said(*words, cwd=None):
    return subprocess.run(words, cwd=cwd, check=True, stdout=subprocess.PIPE, text=True, errors="surrogateescape").stdout


def parts(text, title):
    """The parts of objdump's output, by the section's name behind a title."""
    for part in text.split(title)[1:]:
        name, _, lines = part.partition(":\n")
        yield name.strip("[]"), lines.splitlines()


def instructions(lines):
    """The instructions and relocations of a section, where a jump goes to an instruction's number, by which padding does not count; and the
    number at each address."""
    found, at = [], {}
    for line in lines:
        relocation, instruction = RELOCATION.match(line), INSTRUCTION.match(line)
        if relocation:
            found.append(("", f"{relocation[1]} {relocation[2]}"))
        if not instruction:
            continue
        # (objdump -w puts a relocation behind its instruction)
        text, _, behind = instruction[2].partition("\t")
        text = COMMENT.sub("", text.strip())
        at[int(instruction[1], 16)] = len(found)
        if behind or not PADDING.match(text):
            found.append((text, re.sub(r"^[0-9a-f]+: ", "", behind)))
    target = lambda text: TARGET.sub(lambda it: f"to {at.get(int(it[1], 16))}", text)
    # (of a local function the two relocations are the same)
    same = lambda behind: re.sub(r"\s+", " ", behind).replace("R_X86_64_PLT32", "R_X86_64_PC32")
    return [f"{target(text)}\t{same(behind)}".strip() for text, behind in found], at


def code_of(path, sections):
    """The instructions of each section of code, the number at each address, and where code names tables of jumps."""
    found, numbers, tables = {it.name: [] for it in sections}, {it.name: {} for it in sections}, {}
    for name, lines in parts(said(OBJDUMP, "-drw", "--no-show-raw-insn", path), "Disassembly of section "):
        found[name], numbers[name] = instructions(lines)
        for it in filter(None, map(TABLE.search, found[name])):
            tables.setdefault(it[1], set()).add(int(it[2], 16) + 4)
    for it in sections:
        numbers[it.name].setdefault(it.size, len(found[it.name]))
    return found, numbers, tables


class Compared:
    """What is compared of an object, as lines by section, and the symbols."""

    def __init__(self, path):
        self.object = read(path)
        self.sections = [it for it in self.object.sections if it.kind not in OF_THE_FILE and it.name not in OF_LLVM]
        code, self.numbers, self.tables = code_of(path, [it for it in self.sections if it.is_code])
        self.found = {"(header)": [f"type, machine, system and flags {self.object.header}"], "(symbols)": sorted(self.symbols())}
        held = {it.section for it in self.object.symbols if it.kind != SECTION}
        for it in self.sections:
            if it.size or it.name not in ALWAYS or it.name in held:
                # (of frames some assemblers say that they are data, and others that they are frames)
                kind = "frames" if it.name == FRAMES else it.kind
                begins = f"type {kind}, flags {it.flags:#x}, alignment {it.align}, entry {it.entry}"
                self.found.setdefault(it.name, []).extend([begins, *(code[it.name] if it.is_code else self.data(it))])
        self.describe_frames()

    def place(self, section, value):
        """Which instruction of code is at an address; a place of data by its address."""
        number = self.numbers.get(section, {}).get(value)
        return f"byte {value:#x}" if number is None else f"instruction {number}"

    def symbols(self):
        """A line for each symbol, but for those of sections and of the file's name, and those that mark where code ends and data begins."""
        for it in self.object.symbols:
            if it.name and it.kind not in (SECTION, FILE) and not re.match(r"\$[dx](\.|$)", it.name):
                ends = self.place(it.section, it.value + it.size)
                where = f"{it.section.replace(OTHER, '.L')} from {self.place(it.section, it.value)} to {ends}"
                yield f"{where}, type {it.kind}, binding {it.binding}, visibility {it.visibility}: {it.name}"

    def data(self, section):
        """The bytes of data, sixteen a line, and its relocations."""
        if section.name == FRAMES:
            return
        for at in range(0, section.size, 16):
            yield f"{at:#x}: {section.content[at : at + 16].hex() or 'zero'}"
        for offset, kind, symbol, addend in sorted(section.relocations, key=lambda it: it[0]):
            yield f"{offset:#x}: {self.goes_to(section.name, offset, kind, symbol, addend)}"

    def goes_to(self, name, offset, kind, symbol, addend):
        """A relocation; that of an entry of a table of jumps by the instruction that it goes to."""
        table = max((it for it in self.tables.get(name, ()) if it <= offset), default=None)
        if table is not None and (self.object.header[1], kind, symbol.kind) == (X86_64, PC32, SECTION):
            return f"goes to {self.place(symbol.name, addend - (offset - table))} of {symbol.name}"
        return f"type {kind} {symbol.name}+{addend:#x}"

    def describe_frames(self):
        """What .eh_frame says of each function, with the section of that."""
        for section in (it for it in self.sections if it.name == FRAMES):
            for of, value, size, common, words in frames(section):
                lines = [f"frames from {self.place(of, value)} to {self.place(of, value + size)}: {common}"]
                self.found[of] += [*lines, *(f"frame at {self.place(of, value + at)}: {text}" for at, text in words)]


def object_of(made, room):
    """The object itself, or the only one of an archive."""
    if not made.endswith(".a"):
        return made
    os.mkdir(f"{room}/archive")
    said(os.environ.get("AR", "ar"), "x", os.path.abspath(made), cwd=f"{room}/archive")
    (name,) = os.listdir(f"{room}/archive")
    return f"{room}/archive/{name}"


def first_difference(proved, assembled, names):
    """The first line of a section that is another. `names`: which name each number stands for, and the other way round, so far."""
    for number in range(max(len(proved), len(assembled))):
        here, there = (it[number] if number < len(it) else "(nothing)" for it in (proved, assembled))
        labels = [[it[2] for it in OF_FUNCTION.finditer(line)] for line in (here, there)]
        same = [OF_FUNCTION.sub(r".L\1_", line).replace(OTHER, ".L") for line in (here, there)]
        stands = all(names.setdefault(a, b) == b and names.setdefault(b, a) == a for a, b in zip(*labels))
        if same[0] != same[1] or not stands:
            return f"{number}: proved '{here}', assembled '{there}'"
    return None


def main(words):
    if len(words) != 2:
        print(__doc__, end="", file=sys.stderr)
        return 2
    with tempfile.TemporaryDirectory() as room:
        said(*os.environ.get("CC", "cc").split(), "-c", words[1], "-o", f"{room}/assembled.o")
        proved, assembled = Compared(object_of(words[0], room)).found, Compared(f"{room}/assembled.o").found
    assembled = {name.replace(OTHER, ".L"): lines for name, lines in assembled.items()}
    proved = {name.replace(OTHER, ".L"): lines for name, lines in proved.items()}
    differ, names = 0, {}
    for name in sorted({*proved, *assembled}):
        found = first_difference(proved.get(name, []), assembled.get(name, []), names)
        if found:
            differ += 1
            print(f"{name}: {found}")
    lines = sum(map(len, proved.values()))
    print(f"{len(proved) - 2} sections, {len(proved['(symbols)'])} symbols, {lines} instructions and lines; {differ} differ")
    return 1 if differ else 0


if __name__ == "__main__":
    sys.exit(main(sys.argv[1:]))
