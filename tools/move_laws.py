#!/usr/bin/env python3
"""Moves the law files of crates whose must-fail edits change definitions from specs/ to proofs/, and names them there.

usage: python3 tools/move_laws.py            at the top, once, after tools/respell.py

An edit of a definition is read only where no theorem of specs/ rests on it. A file moves where its name says Laws and neither a clause nor a
definition file of its crate takes a name from it, straight or by another file.
"""
import glob
import os
import re
import subprocess
import sys

TOP = sys.argv[1] if len(sys.argv) > 1 else os.path.dirname(os.path.dirname(os.path.realpath(__file__)))
CRATES = os.path.join(TOP, "crates")
# Their edits change a law's own statement, which reads well where it stands.
STAY = {"gate_sums", "pair_clearing"}


def text_of(path):
    with open(path, encoding="utf-8") as f:
        return f.read()


def imported(crate, text, word):
    return {m.replace(".", "/") + ".antt" for m in re.findall(rf"{word}use Rattle\.{crate}\.specs\.([\w.]+?)(?:\.\{{| as|;|$)", text, re.M)}


def movable(crate):
    specs = os.path.join(CRATES, crate, "specs")
    paths = glob.glob(specs + "/**/*.antt", recursive=True)
    files = {os.path.relpath(p, specs): text_of(p) for p in paths if not p.endswith("/Lib.antt")}
    kept = {f for f in files if "Laws" not in f}
    for p in glob.glob(os.path.join(CRATES, crate, "src/**/*.rt"), recursive=True):
        kept |= imported(crate, text_of(p), "ghost ")
    while True:
        more = {g for f in kept & files.keys() for g in imported(crate, files[f], "")} - kept
        if not more:
            return sorted(files.keys() - kept)
        kept |= more


def main():
    edits = glob.glob(CRATES + "/*/must-fail/*.edit")
    named = {e.split("/crates/")[1].split("/")[0] for e in edits if re.search(r"(?m)^file: specs/", text_of(e))}
    moved = []
    for crate in sorted(named - STAY):
        names = [f[: -len(".antt")] for f in movable(crate)]
        if not names:
            continue
        folder = os.path.join(CRATES, crate)
        os.makedirs(os.path.join(folder, "proofs"), exist_ok=True)
        for name in names:
            subprocess.run(["git", "-C", TOP, "mv", f"crates/{crate}/specs/{name}.antt", f"crates/{crate}/proofs/{name}.antt"], check=True)
            moved.append((crate, name))
        lib = os.path.join(folder, "specs", "Lib.antt")
        lines = text_of(lib).split("\n")
        with open(lib, "w", encoding="utf-8") as f:
            f.write("\n".join(l for l in lines if not re.fullmatch(r"(pub )?mod (\w+)", l) or re.fullmatch(r"(pub )?mod (\w+)", l)[2] not in names))
        lib = os.path.join(folder, "proofs", "Lib.antt")
        was = text_of(lib).rstrip("\n").split("\n") if os.path.exists(lib) else []
        with open(lib, "w", encoding="utf-8") as f:
            f.write("\n".join([f"pub mod {n}" for n in names] + [l for l in was if l]) + "\n")
    table = {f"Rattle.{c}.specs.{n}": f"Rattle.{c}.proofs.{n}" for c, n in moved}
    path = re.compile(r"Rattle\.\w+\.specs\.\w+")
    for at, dirs, files in os.walk(CRATES):
        dirs[:] = [d for d in dirs if d != "out"]
        for name in files:
            if name.endswith((".antt", ".rt", ".edit")):
                p = os.path.join(at, name)
                old = text_of(p)
                new = path.sub(lambda m: table.get(m[0], m[0]), old)
                if name.endswith(".edit"):
                    crate = p.split("/crates/")[1].split("/")[0]
                    for c, n in moved:
                        if c == crate:
                            new = new.replace(f"file: specs/{n}.antt", f"file: proofs/{n}.antt")
                if new != old:
                    with open(p, "w", encoding="utf-8") as f:
                        f.write(new)
    for c, n in moved:
        print(c, n)


main()
