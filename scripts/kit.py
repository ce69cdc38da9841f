"""The kit's `rt`, as a module: the one that is on the PATH, or in RATTLE_KIT/bin."""
import importlib.machinery, importlib.util, os, shutil, sys


def load(name):
    """Loads it; `name` is the command that a machine without the kit is told of."""
    path = os.path.realpath(shutil.which("rt") or f"{os.environ.get('RATTLE_KIT', '')}/bin/rt")
    if not os.path.isfile(path):
        print(f"{name}: rt is missing: put the kit's rt on the PATH, or the kit's folder into RATTLE_KIT", file=sys.stderr)
        sys.exit(127)
    loader = importlib.machinery.SourceFileLoader("rt", path)
    module = importlib.util.module_from_spec(importlib.util.spec_from_loader("rt", loader))
    loader.exec_module(module)
    return module
