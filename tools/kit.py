"""The toolchain's own program rt as a module, for tools that check parts of a crate."""

import importlib.machinery
import importlib.util
import os
import subprocess
import sys

TOP = os.path.dirname(os.path.dirname(os.path.realpath(__file__)))


def kit():
    """The module: it knows with which words a crate is checked."""
    page = subprocess.run(["rt", "doc"], capture_output=True, text=True, check=True).stdout.split("\n")[0]
    sys.dont_write_bytecode = True
    loader = importlib.machinery.SourceFileLoader("rt_of_kit", f"{os.path.dirname(page)}/bin/rt")
    module = importlib.util.module_from_spec(importlib.util.spec_from_loader("rt_of_kit", loader))
    sys.modules["rt_of_kit"] = module
    loader.exec_module(module)
    return module


def crates_by_name(rt):
    """The crates of the repository, which is the current folder."""
    rt.Crate.allowed = rt.handles_of(TOP)
    rt.Crate.cuts_libraries = True
    return {crate.name: crate for crate in rt.crates_of(TOP)}


def refuse_unbuilt(tool, crate):
    """Ends the program where a library of the crate is not built."""
    lacking = [it.name for it in crate.below() if not os.path.exists(it.rlib)]
    if lacking:
        sys.exit(f"tools/{tool}: {lacking[0]} is not built: run rt ci first")
