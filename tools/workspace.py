"""What the programs of tools/ share: the crates of this repository, what each is made from, and the Rattle kit.

`rt ci` neither runs nor checks anything in tools/. After it `.ci/run` has `tools/audit` check itself.
"""
import hashlib
import importlib.machinery
import importlib.util
import os
import signal
import subprocess
import sys

if sys.version_info < (3, 9):
    sys.exit(f"{os.path.basename(sys.argv[0])}: this needs Python 3.9 or later, and {sys.executable} is {sys.version.split()[0]}")

ROOT = os.path.dirname(os.path.dirname(os.path.realpath(__file__)))
NO_KIT = "there is no `rt` on the path: zetcd is built by the Rattle kit (compiler, prover and libraries); put the kit's bin/ on the path"


def crates():
    """Each crate of crates.txt with the crates of this repository that it names."""
    named = {}
    with open(f"{ROOT}/crates.txt", encoding="utf-8") as lines:
        for line in lines:
            name, colon, deps = line.split("#")[0].partition(":")
            if colon:
                named[name.split()[0]] = deps.split()
    return {name: [it for it in deps if it in named] for name, deps in named.items()}


def with_below(names):
    """These crates and all that they stand on."""
    named, found, left = crates(), set(), list(names)
    while left:
        name = left.pop()
        if name not in found:
            found.add(name)
            left += named.get(name, [])
    return found


def sources(name):
    """The files that a check of this crate reads, in order."""
    found = []
    for part in ("src", "specs", "proofs"):
        for folder, _, files in os.walk(f"{ROOT}/crates/{name}/{part}"):
            found += [f"{folder}/{it}" for it in files]
    return sorted(found)


def name_of_program():
    return os.path.basename(sys.argv[0])


def ends_as(main):
    """Runs a program and ends with its status. A signal ends it as it would end any other, but lets it end first what it started; and what
    goes wrong with a disk or a file is said in a sentence."""
    for it in (signal.SIGHUP, signal.SIGINT, signal.SIGTERM):
        signal.signal(it, lambda number, _: sys.exit(128 + number))
    try:
        sys.exit(main(sys.argv[1:]))
    except OSError as wrong:
        sys.exit(f"{name_of_program()}: {sentence_of(wrong)}")


def sentence_of(wrong):
    """What went wrong, by the system's own words: `/tmp: No space left on device`."""
    return ": ".join(str(it) for it in (wrong.filename, wrong.strerror or wrong) if it)


def rt_says(word):
    """What `rt` prints at this word, as bytes. If there is no `rt`, or it fails, the program says so and ends with status 1."""
    try:
        return subprocess.run(["rt", word], stdout=subprocess.PIPE, check=True).stdout
    except FileNotFoundError:
        sys.exit(f"{name_of_program()}: {NO_KIT}")
    except subprocess.CalledProcessError as wrong:
        sys.exit(f"{name_of_program()}: `rt {word}` ended with status {wrong.returncode}: is the Rattle kit whole? `rt selftest` tries it")


def stamp(names):
    """A sum of all that these crates are made from: their sources, their lines of crates.txt, those of the crates below, the kit."""
    total = hashlib.sha256(rt_says("version"))
    wanted = with_below(names)
    with open(f"{ROOT}/crates.txt", encoding="utf-8") as lines:
        total.update(repr([it for it in lines if (it.split("#")[0].split() or [""])[0].rstrip(":") in wanted]).encode())
    for name in sorted(wanted):
        for path in sources(name):
            with open(path, "rb") as it:
                total.update(repr((os.path.relpath(path, ROOT), it.read())).encode())
    return total.hexdigest()


def kit():
    """The kit's folder, in which `rt` is bin/rt."""
    return os.path.dirname(os.fsdecode(rt_says("doc")).strip())


def library_of(folder):
    """The module that the kit's `rt` is made of. No part of it is promised to stay as it is; ImportError if there is none."""
    sys.dont_write_bytecode = True
    loader = importlib.machinery.SourceFileLoader("rtlib", f"{folder}/bin/rtlib.py")
    module = importlib.util.module_from_spec(importlib.util.spec_from_loader("rtlib", loader))
    sys.modules["rtlib"] = module
    try:
        loader.exec_module(module)
    except Exception as wrong:
        raise ImportError(f"{folder}/bin/rtlib.py: {wrong}") from wrong
    return module


def text_of(path):
    """What a file holds; None if there is no such file."""
    try:
        with open(path, encoding="utf-8") as it:
            return it.read()
    except FileNotFoundError:
        return None
