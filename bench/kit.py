"""The kit's own modules, for scripts that prove many crates side by side."""
import importlib.machinery
import importlib.util
import os
import shutil
import sys


def load(name, file):
    """Returns a module of the kit, which stands beside the command rt."""
    sys.dont_write_bytecode = True
    loader = importlib.machinery.SourceFileLoader(name, f"{os.path.dirname(os.path.realpath(shutil.which('rt')))}/{file}")
    made = importlib.util.module_from_spec(importlib.util.spec_from_loader(name, loader))
    sys.modules[name] = made
    loader.exec_module(made)
    return made


def remember_stamps(crates):
    """Makes the kit compute the sum of a crate once: else it does once for each way down to it, which takes 37 seconds for the program.

    Returns the function that computes the sum of a crate anew, from those of the crates below it."""
    sums, computed = {}, crates.stamp

    def stamp(crate):
        if crate.name not in sums:
            sums[crate.name] = computed(crate)
        return sums[crate.name]

    crates.stamp = stamp
    return computed


def stamp_libraries(crates):
    """Marks the library of each of these crates that is there as proved from the sources as they stand, as `rt ci` has just left it: it leaves no stamp."""
    for crate in crates:
        if os.path.isdir(crate.rlib):
            with open(f"{os.path.dirname(crate.rlib)}/stamp", "w", encoding="utf-8") as file:
                file.write(crate.stamp())
