#!/usr/bin/env python3
"""Before the kit's port.py, once, at the top of the checkout: some modules of crate demands are imported under a function's own
name, as `copy_at`, which port.py takes for a name of the newer library, and it then leaves its older steps out. They get a dash."""
import pathlib
import re

NAMES = "read_table copy_at read_head same_bytes entry_of is_of has_room".split()
for path in sorted(pathlib.Path("crates/demands/proofs").glob("*.antt")):
    text = old = path.read_text()
    for name in NAMES:
        if f" as {name}\n" in text:
            text = re.sub(rf"(?<![\w.-]){name}(?=\n|\.Post)", name.replace("_", "-"), text)
    if text != old:
        path.write_text(text)
        print(path)
