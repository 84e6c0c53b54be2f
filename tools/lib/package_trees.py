"""The packages of a source tree, and the sources of each, for racer-packages and racer-witness."""
import os

from report_files import Fault, joined

INFO = ("module-info.java", "package-info.java")


def is_source(entry):
    """Whether a file of a package is one that racer gets, links included, which are left out with a reason."""
    return entry.name.endswith(".java") and entry.name not in INFO and (entry.is_symlink() or entry.is_file())


def has_source(folder):
    """Whether a folder has sources itself, or may not be read, which is told of it as of a package."""
    try:
        with os.scandir(folder) as entries:
            return any(is_source(entry) and not entry.is_symlink() for entry in entries)
    except PermissionError:
        return True


def packages_of(tree):
    """The names of the folders of a tree that have sources, or may not be read, in order; . is the tree itself."""
    found, closed = [], []
    for folder, folders, _ in os.walk(tree, onerror=lambda fault: closed.append(fault.filename)):
        folders.sort()
        if has_source(folder):
            found.append(os.path.relpath(folder, tree))
    return sorted({*found, *(os.path.relpath(folder, tree) for folder in closed)})


def read_sources(folder):
    """The sources of a package, each with its bytes, and what is left out."""
    with os.scandir(folder) as entries:
        found = sorted((entry for entry in entries if is_source(entry)), key=lambda entry: os.fsencode(entry.name))
    sources, left_out = [], []
    for entry in found:
        if entry.is_symlink():
            left_out.append([entry.name, "", "a symbolic link"])
            continue
        with open(entry.path, "rb") as file:
            sources.append((entry.name, file.read()))
    return sources, left_out


def check_tree(tree, reserved):
    """The packages of a tree, which has some, and whose folders can be told from files of results."""
    if not os.path.isdir(tree):
        raise Fault(f"{tree} is no folder")
    packages = packages_of(tree)
    if not packages:
        raise Fault(f"{tree} has no file that ends in .java")
    for package in packages:
        if any(part in reserved for part in package.split("/")):
            raise Fault(f"{joined(tree, package)}: a folder of this name has no place beside the results")
    return packages
