"""The toolchain's rt, but for how often it computes the checksum of a crate's text: once in a run.

rt computes it once for each path of dependencies down to the crate, and several times over: of graph_tool 18,581 times, which
takes half a minute of a processor each time. Nothing else differs. A toolchain whose rt has no such checksum runs as it is.
"""
import importlib.machinery
import importlib.util
import os
import shutil
import sys

sys.dont_write_bytecode = True
# The modules of this folder aren't meant where rt imports one of Python's.
sys.path[:1] = []


def loaded(path):
    loader = importlib.machinery.SourceFileLoader("rt", path)
    module = importlib.util.module_from_spec(importlib.util.spec_from_loader("rt", loader))
    sys.modules["rt"] = module
    loader.exec_module(module)
    return module


def is_python(path):
    with open(path, "rb") as file:
        return b"python" in file.readline()


def keep_stamps(crates):
    """The checksum of a crate is computed once for each object that stands for it."""
    computed = crates.stamp

    def stamp(self):
        if "kept_stamp" not in self.__dict__:
            self.kept_stamp = computed(self)
        return self.kept_stamp

    crates.stamp = stamp


def main(words):
    command = shutil.which("rt")
    if not command:
        sys.exit("rt: the toolchain's command rt isn't on the path")
    place = os.path.realpath(command)
    if not is_python(place):
        os.execv(command, ["rt", *words])
    sys.argv = [place, *words]
    rt = loaded(place)
    crates = getattr(getattr(rt, "rtlib", None), "Crate", None)
    if hasattr(crates, "stamp"):
        keep_stamps(crates)
    return rt.main(words)


if __name__ == "__main__":
    sys.exit(main(sys.argv[1:]))
