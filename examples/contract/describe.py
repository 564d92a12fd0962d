"""Says of a WebAssembly module how large it is, the pages that it begins with, and what it imports with which type."""
import sys
from pathlib import Path

TYPES, IMPORTS, MEMORY = 1, 2, 5  # numbers of sections
FUNCTION = 0  # of the kinds of imports
KINDS = {0x7F: "i", 0x7E: "q", 0x7D: "f32", 0x7C: "f64"}  # as the table of calls in docs/FORMATS.md writes them


class Bytes:
    """Bytes that are read from front to back."""

    def __init__(self, data):
        self.data, self.at = data, 0

    def take(self, count):
        self.at += count
        return self.data[self.at - count:self.at]

    def byte(self):
        return self.take(1)[0]

    def number(self):
        value = shift = 0
        while (byte := self.byte()) & 0x80:
            value |= (byte & 0x7F) << shift
            shift += 7
        return value | byte << shift

    def text(self):
        return self.take(self.number()).decode()

    def list(self, read):
        return [read() for _ in range(self.number())]


def sections(module):
    """The contents of each section by its number."""
    data, found = Bytes(module), {}
    data.take(8)
    while data.at < len(module):
        number = data.byte()
        found[number] = Bytes(data.take(data.number()))
    return found


def function_type(section):
    section.byte()
    params, results = (section.list(lambda: KINDS[section.byte()]) for _ in range(2))
    return f"({''.join(params)})" + "".join(f" {kind}" for kind in results)


def function_import(section):
    """(name, number of the type)"""
    module, name, kind = section.text(), section.text(), section.byte()
    if module != "env" or kind != FUNCTION:
        raise SystemExit(f"{module}.{name}: the node gives functions of `env` alone")
    return name, section.number()


def imports(module):
    """The imported functions with their types, in order."""
    found = sections(module)
    if IMPORTS not in found:
        return []
    types = found[TYPES].list(lambda: function_type(found[TYPES]))
    return [(name, types[number]) for name, number in found[IMPORTS].list(lambda: function_import(found[IMPORTS]))]


def pages(module):
    """The pages of 65,536 bytes that its memory begins with."""
    memory = sections(module).get(MEMORY)
    if memory is None or memory.number() == 0:
        return 0
    memory.byte()
    return memory.number()


def main(path):
    module = Path(path).read_bytes()
    print(f"{Path(path).name}: {len(module)} bytes")
    print(f"pages of memory at the start: {pages(module)}")
    print("imports:")
    for name, kinds in imports(module):
        print(f"    {name}{kinds}")


if __name__ == "__main__":
    main(sys.argv[1])
