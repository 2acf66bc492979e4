#!/usr/bin/env python3
"""Tries what `./ipam install` refuses, what links it follows, and installers side by side.

    tools/checks/install.py [--quick] [PROGRAM]      else release/ipam

A small checkout of one crate stands for the repository. Its program writes its words, and as the plugin its
configuration; two tests use PROGRAM itself. With --quick fewer installers run side by side. Prints each test that fails, and then
`N passed, M failed`.
"""
import os
import pathlib
import shutil
import subprocess
import sys
import tempfile
import threading

TOP = pathlib.Path(__file__).resolve().parents[2]
STUB = """#!/bin/sh
case $0 in */calico-ipam) cat "${0%/*}/calico-ipam.conf" ;; *) echo "$@" ;; esac
"""
BAD = os.fsdecode(b"no\xfftext")
passed = failed = 0


def check(what, holds, seen=""):
    global passed, failed
    if holds:
        passed += 1
    else:
        failed += 1
        print(f"failed: {what}: {seen!r}")


def is_same(what, seen, wanted):
    check(what, seen == wanted, (seen, wanted))


def run(words, cwd=None, before=""):
    """Runs the words, after these of a shell."""
    words = [os.fspath(word) for word in words]
    environment = {key: value for key, value in os.environ.items() if not key.startswith(("IPAM_", "CNI_"))}
    shell = ["bash", "-c", before + 'exec "$@"', "bash", *words]
    return subprocess.run(shell, stdin=subprocess.DEVNULL, cwd=cwd, env=environment, capture_output=True)


def make_checkout(place, program=None):
    """A checkout of one crate, whose released program is the stub or this one."""
    for folder in ("tools", "crates/ipamd/src", "crates/ipamd/specs", "release"):
        os.makedirs(place / folder)
    shutil.copy(TOP / "ipam", place / "ipam")
    for name in ("chain", "manifest", "calico-ipam"):
        if (TOP / "tools" / name).exists():
            shutil.copy(TOP / "tools" / name, place / "tools" / name)
    (place / "crates.txt").write_text("ipamd:\n")
    (place / "crates/ipamd/src/main.rt").write_text("// the source\n")
    (place / "crates/ipamd/specs/Lib.antt").write_text("// the definitions\n")
    if program is None:
        (place / "release/ipam").write_text(STUB)
    else:
        shutil.copy(program, place / "release/ipam")
    os.chmod(place / "release/ipam", 0o755)
    (place / "release/MANIFEST").write_bytes(run([place / "tools/manifest", "the kit", place / "release/ipam"]).stdout)
    return place / "ipam"


def contents(folder):
    """The files of a folder and what they have."""
    return {path.name: path.read_bytes() for path in folder.iterdir() if path.is_file()} if folder.exists() else None


def try_words(ipam, work):
    """Words that begin with `-` are refused with the usage, and change nothing."""
    empty = work / "empty"
    os.makedirs(empty)
    for words in (
        ["install", "--help"], ["install", "-h"], ["install", "--"], ["install", "-x", "rows.db"], ["install", "bin", "-x"],
        ["install", "--daemon", "--help"], ["install", "--daemon", "bin", "-x:9"], ["install", "bin", "--daemon"],
        ["uninstall", "--help"], ["uninstall", "-x"], ["install"], ["uninstall"],
    ):
        ran = run([ipam, *words], cwd=empty)
        is_same(f"words {words!r}", (ran.returncode, ran.stdout, os.listdir(empty)), (2, b"", []))
        told = ran.stderr.decode().splitlines()
        check(f"usage of {words!r}", told and "set -" not in ran.stderr.decode() and "the database stays" in told[-1], told[-1:])


def try_refusals(ipam, work):
    """Paths at which nothing can work."""
    os.symlink(work / "nothing", work / "dangling")
    os.makedirs(work / BAD)
    other = make_checkout(work / "checkout of" / BAD)
    for what, words, cwd in (
        ("a folder that is no UTF-8", ["install", work / "bin" / BAD, "rows.db"], work),
        ("a folder in one that is no UTF-8", ["install", "bin", work / "rows.db"], work / BAD),
        ("a database that is no UTF-8", ["install", work / "bin", f"{work}/{BAD}.db"], work),
        ("a socket file that is no UTF-8", ["install", "--daemon", work / "bin", f"/{BAD}"], work),
        ("a folder of the daemon's plugin that is no UTF-8", ["install", "--daemon", work / "bin" / BAD], work),
        ("a folder that is a link to nothing", ["install", work / "dangling", work / "rows.db"], work),
        ("a database that is a link to nothing", ["install", work / "bin", work / "dangling"], work),
    ):
        ran = run([ipam, *words], cwd=cwd)
        is_same(what, (ran.returncode, ran.stdout, (work / "bin").exists(), (work / "nothing").exists()), (2, b"", False, False))
    ran = run([other, "install", work / "bin", work / "rows.db"])
    is_same("a checkout whose path is no UTF-8", (ran.returncode, (work / "bin").exists()), (2, False))


def try_places(ipam, work):
    """What stands in the place of one of the files."""
    bin = work / "places"
    run([ipam, "install", bin, work / "rows.db"])
    names = sorted(os.listdir(bin))
    check("some files are installed", "calico-ipam" in names and "calico-ipam.conf" in names, names)
    for name in names:
        kept = contents(bin)
        (bin / name).unlink()
        os.makedirs(bin / name)
        ran = run([ipam, "install", bin, work / "other.db"])
        del kept[name]
        is_same(f"a folder in the place of {name}", (ran.returncode, contents(bin), os.listdir(bin / name)), (2, kept, []))
        (bin / name).rmdir()
        is_same(f"installs {name} again", (run([ipam, "install", bin, work / "rows.db"]).returncode, sorted(os.listdir(bin))), (0, names))
    victim, folder = work / "victim", work / "victims"
    victim.write_text("of somebody else\n")
    os.makedirs(folder)
    for target in (victim, folder, work / "nothing"):
        for name in names:
            for planted in (name, f"{name}.new"):
                place = bin / planted
                place.unlink(missing_ok=True)
                os.symlink(target, place)
            ran = run([ipam, "install", bin, work / "rows.db"])
            seen = ran.returncode, victim.read_text(), os.listdir(folder), (work / "nothing").exists(), (bin / name).is_symlink()
            is_same(f"links at {name} to {target.name}", seen, (0, "of somebody else\n", [], False, False))
            (bin / f"{name}.new").unlink()
    modes = {name: oct((bin / name).stat().st_mode & 0o777) for name in names}
    is_same("modes", modes, {name: oct(0o644 if name.endswith(".conf") else 0o755) for name in names})
    kept = contents(bin)
    ran = run([ipam, "install", bin, work / "other.db"], before="ulimit -f 0; ")
    is_same("an installer that can't write leaves the plugin as it was", (ran.returncode != 0, contents(bin)), (True, kept))
    is_same("and nothing beside it", sorted(os.listdir(bin)), names)
    is_same("uninstalls", (run([ipam, "uninstall", bin]).returncode, os.listdir(bin)), (0, []))


def try_side_by_side(ipam, work, rounds):
    """Three installers beside calls of the plugin: each call runs a whole plugin."""
    bin = work / "beside"
    words = [[ipam, "install", "--daemon", bin, f"/run/{name}/s"] for name in "abc"]
    run(words[0])
    ended, calls, over = [], [], threading.Event()

    def install(at):
        for _ in range(rounds):
            ended.append(run(words[at]).returncode)

    def call():
        while not over.is_set():
            ran = run([bin / "calico-ipam"])
            calls.append((ran.returncode, ran.stdout, ran.stderr))

    installers = [threading.Thread(target=install, args=(at,)) for at in range(3)]
    caller = threading.Thread(target=call)
    caller.start()
    for one in installers:
        one.start()
    for one in installers:
        one.join()
    over.set()
    caller.join()
    is_same(f"{3 * rounds} installers side by side", [status for status in ended if status], [])
    good = {(0, f"daemon /run/{name}/s\n".encode(), b"") for name in "abc"}
    is_same(f"{len(calls)} calls beside them", [one for one in calls if one not in good], [])
    check("nothing is left beside the files", not [name for name in os.listdir(bin) if name.startswith(".")], os.listdir(bin))


def try_limits(work, program):
    """A limit on the size of files is a write that fails."""
    ipam = make_checkout(work / "whole", program)
    ran = run([ipam, "--help"], before=f"ulimit -f 1; exec >'{work}/out'; ")
    is_same("status of --help under a limit", (ran.returncode, (work / "out").stat().st_size), (4, 1024))
    ran = run([ipam, "apply"], cwd=work, before=f"ulimit -f 1; exec <'{TOP}/examples/pool.json'; ")
    is_same("apply under a limit", (ran.returncode, ran.stdout), (5, b"keeper fault\n"))
    ran = run([ipam, "apply"], cwd=work, before=f"exec <'{TOP}/examples/pool.json'; ")
    is_same("apply without it", (ran.returncode, ran.stdout), (0, b"applied IPPool default-ipv4-ippool\n"))


def main():
    words = sys.argv[1:]
    quick = "--quick" in words
    words = [word for word in words if word != "--quick"]
    program = pathlib.Path(words[0] if words else TOP / "release/ipam").resolve()
    work = pathlib.Path(tempfile.mkdtemp()).resolve()
    try:
        ipam = make_checkout(work / "checkout")
        try_words(ipam, work)
        try_refusals(ipam, work)
        try_places(ipam, work)
        try_side_by_side(ipam, work, 5 if quick else 40)
        try_limits(work, program)
    finally:
        shutil.rmtree(work)
    print(f"{passed} passed, {failed} failed")
    return failed != 0


sys.exit(main())
