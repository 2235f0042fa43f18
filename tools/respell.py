#!/usr/bin/env python3
"""Turns the names of a repository's own definitions and laws from camel case to words in small letters joined by `_`.

usage: tools/respell.py [FOLDER]      once, in a repository, or in FOLDER, that the toolchain's port.py has turned

Turned is each word in camel case of the .antt and .edit files that is no function of src/, wherever it stands in these and
in .rt files; a string and a hexadecimal number stay. Where a definition and a law fall together so, the law's words are joined
by `-`, and its name is printed. docs/PORT.md says what the names of today are compared with.
"""

import os
import re
import sys

LAW = re.compile(r"^ *(?:pub )?([a-z]\w*) :", re.M)
CAMEL = re.compile(r"[a-z][a-z0-9]*(?:[A-Z][a-z0-9]*)+'?")
FUNCTION = re.compile(r"\bfn\s+([A-Za-z_]\w*)")
WORD = re.compile(r"""("(?:[^"\\\n]|\\.)*"|\b0x[0-9A-Fa-f_]+)|(?<![\w'])([a-z][\w']*)""")


def files(top):
    for folder, folders, names in os.walk(os.path.join(top, "crates")):
        folders[:] = sorted(f for f in folders if f != "out")
        for name in sorted(names):
            if name.endswith((".rt", ".antt", ".edit")):
                yield os.path.join(folder, name)


def snake(name):
    return re.sub(r"[A-Z]", lambda m: "_" + m[0].lower(), name)


def main(argv):
    top = argv[1] if len(argv) > 1 else "."
    texts = {}
    for path in files(top):
        with open(path, encoding="utf-8") as f:
            texts[path] = f.read()
    words, laws, code = set(), set(), set()
    for path, text in texts.items():
        if path.endswith(".rt"):
            code.update(FUNCTION.findall(text))
            continue
        words.update(m[2] for m in WORD.finditer(text) if m[2])
        if os.sep + "proofs" + os.sep in path:
            laws.update(LAW.findall(text))
    turned = {word: snake(word) for word in words - code if CAMEL.fullmatch(word)}
    for name in sorted((laws - code) & set(turned.values())):
        turned[name] = name.replace("_", "-")
        print(f"fall together: the law {name} becomes {turned[name]}")
    for path, text in texts.items():
        new = WORD.sub(lambda m: m[1] or turned.get(m[2], m[2]), text)
        if new != text:
            with open(path, "w", encoding="utf-8") as f:
                f.write(new)
    print(f"{len(turned)} names turned")


if __name__ == "__main__":
    main(sys.argv)
