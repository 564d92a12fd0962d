"""The header against the node's own table of calls: the same names in the same order, and the same types once compiled."""
import re
import subprocess
import tempfile
import unittest
from pathlib import Path

import describe

HERE = Path(__file__).resolve().parent
TABLE = HERE.parents[1] / "crates/ante_wtree/specs/Intrinsics.antt"
KEYS = {64: "i", 128: "i", 256: "ii"}  # how a call of this index is passed a key


def kinds(text, key=""):
    """The letters of a list like `q ∷ q ∷ key`."""
    return re.sub(r"[^iq]", "", text.replace("key", key))


def entry(name, params, result, key=""):
    return name, f"({kinds(params, key)})" + (f" {kinds(result)}" if result != "None" else "")


def table_of_the_node():
    """(name, type) of each call, in the order of the table."""
    text = TABLE.read_text()
    line = r'codes "(\w+)"\) (\[\]|\(.*\)) (None|\(Some \w\)) ∷'
    plain = [entry(*found) for found in re.findall(r"call \(" + line, text)]
    index = re.findall(r"call \(prefix \+\+ " + line, text)
    return plain + [entry(f"db_idx{width}_{name}", params, result, key) for width, key in KEYS.items() for name, params, result in index]


def build(source, module):
    """Builds a contract that is only to be linked, without a word."""
    subprocess.run([HERE / "build", source, module], check=True, capture_output=True)


class Header(unittest.TestCase):
    def setUp(self):
        self.table = table_of_the_node()
        self.names = [name for name, _ in self.table]

    def test_the_table_was_read_whole(self):
        self.assertEqual(len(self.table), 88)

    def test_names_stand_in_the_order_of_the_table(self):
        declared = re.findall(r"^(?!static|#).*?(\w+)\(.*\);$", (HERE / "ante.h").read_text(), re.MULTILINE)
        self.assertEqual(declared, self.names)
        self.assertEqual((HERE / "env.imports").read_text().split(), self.names)

    def test_each_call_is_imported_with_the_type_of_the_table(self):
        calls = ", ".join(f"(void *){name}" for name in self.names)
        with tempfile.TemporaryDirectory() as folder:
            source, module = Path(folder, "all.c"), Path(folder, "all.wasm")
            source.write_text(f'#include "ante.h"\nvoid *calls[] = {{{calls}}};\n'
                              "void apply(name receiver, name account, name action) {\n"
                              "    ((void (*)(void))calls[(receiver ^ account ^ action) % 88])();\n}\n")
            build(source, module)
            imported = dict(describe.imports(module.read_bytes()))
        self.assertEqual(imported, dict(self.table))


class Names(unittest.TestCase):
    def test_a_name_is_its_number(self):
        numbers = {"eosio": 6138663577826885632, "eosio.token": 6138663591592764928, "": 0, "zzzzzzzzzzzzj": 18446744073709551615}
        with tempfile.TemporaryDirectory() as folder:
            for text, number in numbers.items():
                source = Path(folder, "name.c")
                source.write_text(f'#include "ante.h"\nchar is_its_number[NAME("{text}") == {number}u ? 1 : -1];\n'
                                  "void apply(name receiver, name account, name action) { (void)receiver, (void)account, (void)action; }\n")
                build(source, Path(folder, "name.wasm"))


if __name__ == "__main__":
    unittest.main()
