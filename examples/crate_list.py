"""What the scripts share of the crates: what crates.txt says of them, and copies of some of them."""
import os
import shutil

TOP = os.path.dirname(os.path.dirname(os.path.abspath(__file__)))
CRATES = os.path.join(TOP, "crates")
# What a proof reads of a crate.
PARTS = ("src", "specs", "proofs")


def listed_crates():
    """What each crate uses beside std, in the order of crates.txt."""
    with open(os.path.join(TOP, "crates.txt"), encoding="utf-8") as file:
        rows = (line.partition("#")[0].partition(":") for line in file)
        return {name.strip(): used.split() for name, colon, used in rows if colon}


def crates_below(name, listed):
    """The repository's crates below a crate, each once."""
    found, left = [], list(listed[name])
    while left:
        crate = left.pop()
        if crate in listed and crate not in found:
            found.append(crate)
            left += listed[crate]
    return found


def copy_crates(name, folder):
    """Copies a crate and those below it to a folder, as a repository of their own, without what was made of them."""
    listed = listed_crates()
    crates = [name, *crates_below(name, listed)]
    shutil.copy(os.path.join(TOP, "HANDLES"), folder)
    with open(os.path.join(folder, "crates.txt"), "w", encoding="utf-8") as file:
        file.writelines("%s: %s\n" % (crate, " ".join(listed[crate])) for crate in crates)
    for crate in crates:
        home = os.path.join(CRATES, crate)
        # A folder `out` further in may be one of proofs.
        made = lambda inside, _: ["out"] if inside == home else []
        shutil.copytree(home, os.path.join(folder, "crates", crate), ignore=made)
