#!/usr/bin/env python3
"""Compares what C sees with abi.txt: the soname, the exported symbols, sizes and places of fields, and codes.

    tests/check_abi.py SHARED [--write]

SHARED is the shared object. With --write abi.txt is written anew."""

from __future__ import annotations

import difflib
import os
import pathlib
import platform
import re
import shutil
import subprocess
import sys
import tempfile

BINDINGS = pathlib.Path(__file__).resolve().parent.parent
LIST = BINDINGS / "abi.txt"
CC = os.environ.get("CC", "cc")


def run(*words: str) -> str:
    return subprocess.run(words, check=True, capture_output=True, text=True, cwd=BINDINGS).stdout


def structures(text: str) -> list[tuple[str, list[str]]]:
    """The structures of the header, each with the names of its fields."""
    found = []
    for name, body in re.findall(r"struct (\w+) \{([^}]*)\}", text):
        fields = [
            re.search(r"(\w+)(\[\d+\])?$", it.strip()).group(1)
            for line in body.split(";")
            if line.strip()
            for it in line.split(",")
        ]
        found.append((name, fields))
    return found


def seen_by_a_compiler() -> list[str]:
    """What a program prints that the compiler makes of the header."""
    text = run(CC, "-E", "-P", "confluo.h")
    prints = []
    for name, fields in structures(text):
        prints.append(f'printf("size {name} %zu\\n", sizeof({name}));')
        prints += [
            f'printf("field {name}.{it} at %zu of %zu\\n", offsetof({name}, {it}), sizeof((({name} *)0)->{it}));'
            for it in fields
        ]
    codes = re.findall(r"\b(CONFLUO_[A-Z_]+) = \d+", text)
    prints += [f'printf("code {it} %d\\n", (int){it});' for it in codes]
    source = "\n".join(
        ['#include "confluo.h"', "#include <stdio.h>", "int main(void) {", *prints, "return 0; }", ""]
    )
    with tempfile.TemporaryDirectory() as folder:
        place = pathlib.Path(folder)
        (place / "seen.c").write_text(source)
        run(CC, "-std=c11", "-I.", "-o", str(place / "seen"), str(place / "seen.c"))
        return run(str(place / "seen")).splitlines()


def seen_by_a_linker(shared: str) -> list[str]:
    soname = re.search(r"soname: \[(.*)\]", run("readelf", "-d", shared))
    symbols = [it.split() for it in run("nm", "-D", "--defined-only", shared).splitlines()]
    names = sorted(it[2] for it in symbols if it[1] != "A")
    return [f"soname {soname.group(1) if soname else '-'}", *(f"symbol {it}" for it in names)]


def main() -> int:
    shared = str(pathlib.Path(sys.argv[1]).resolve())
    missing = [it for it in ("nm", "readelf", CC) if not shutil.which(it)]
    if missing or (platform.system(), platform.machine()) != ("Linux", "x86_64"):
        why = f"{missing[0]} is missing" if missing else "the library is for Linux on x86-64"
        print(f"check-abi: skipped, {why}")
        return 0
    had = LIST.read_text().splitlines()
    said = [it for it in had if it.startswith("#")]
    found = [*said, *seen_by_a_linker(shared), *seen_by_a_compiler()]
    if sys.argv[2:] == ["--write"]:
        LIST.write_text("\n".join(found) + "\n")
        return 0
    if found != had:
        print("check-abi: this is not what abi.txt lists")
        print("\n".join(difflib.unified_diff(had, found, "abi.txt", "found", n=0, lineterm="")))
        return 1
    symbols = sum(it.startswith("symbol ") for it in found)
    print(f"check-abi: {symbols} symbols, structures and codes are those of abi.txt")
    return 0


if __name__ == "__main__":
    sys.exit(main())
