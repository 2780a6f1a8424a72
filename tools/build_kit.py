"""The toolchain's command `rt` as a module, for the tools that call its own functions.

Kits differ in what their `rt` has, so a tool asks for what it needs by name, and not for the kit's name.
"""
import importlib.machinery
import importlib.util
import os
import shutil
import sys

SHARE = 0.55  # of the memory that rt reckons for a check; less was measured (docs/LESSONS.md, "The gate's time")
LEAST = 1_000_000_000  # bytes, of a small crate
SPARE = 0.9  # of the free memory that checks may take


def toolchain(caller):
    """The program rt as a module. `caller` is the tool that ends if there is none."""
    found = shutil.which("rt") or sys.exit(f"{caller}: the toolchain's command rt is not on the PATH")
    sys.dont_write_bytecode = True
    loader = importlib.machinery.SourceFileLoader("rt", os.path.realpath(found))
    module = importlib.util.module_from_spec(importlib.util.spec_from_loader("rt", loader))
    loader.exec_module(module)
    return module


def lacking(rt, names):
    """Those of these dotted names, as `rtlib.Crate.stamp`, that this kit's rt has not."""
    def has(name):
        found = rt
        for part in name.split("."):
            if not hasattr(found, part):
                return False
            found = getattr(found, part)
        return True

    return [name for name in names if not has(name)]


def peak(rt, crate):
    """The most memory in bytes that a check of this crate with one job may take."""
    return max(LEAST, int(SHARE * rt.need(crate)))
