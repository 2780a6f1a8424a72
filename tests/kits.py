"""A kit that lacks something, for the tests of tools that call the toolchain's own functions."""
import os
import shutil
import sys

# An rt that has what the machine's rt has, but for one name.
POORER = """#!{python}
import importlib.machinery, importlib.util, sys
sys.dont_write_bytecode = True
loader = importlib.machinery.SourceFileLoader("real_rt", {real!r})
real = importlib.util.module_from_spec(importlib.util.spec_from_loader("real_rt", loader))
loader.exec_module(real)
globals().update({{name: it for name, it in vars(real).items() if name not in ("__name__", {lacks!r})}})
if __name__ == "__main__":
    sys.exit(main(sys.argv[1:]))
"""


def poorer_kit(room, lacks):
    """The environment of a process whose rt has not this name. The rt is written into the folder `room`."""
    path = os.path.join(room, "rt")
    with open(path, "w", encoding="utf-8") as it:
        it.write(POORER.format(python=sys.executable, real=os.path.realpath(shutil.which("rt")), lacks=lacks))
    os.chmod(path, 0o755)
    return {**os.environ, "PATH": f"{room}{os.pathsep}{os.environ['PATH']}"}
