"""The crates of crates.txt, the libraries that `rt ci` has built of them, and the prover's words for a crate over these."""
import functools
import pathlib
import re
import subprocess

TOP = pathlib.Path(__file__).resolve().parent.parent


@functools.cache
def kit():
    """The folder of the kit."""
    return pathlib.Path(subprocess.run(["rt", "doc"], capture_output=True, text=True, check=True).stdout.strip()).parent


@functools.cache
def crates():
    """The libraries that each crate uses, by its name, lower crates first."""
    lines = (TOP / "crates.txt").read_text(encoding="utf-8").splitlines()
    found = (re.match(r"(\w+)(?: \w+)?:(.*)", line) for line in lines if not line.startswith("#"))
    return {it[1]: it[2].split() for it in found if it}


@functools.cache
def below(name):
    """The crates below a crate, lower ones first."""
    found = {}
    for it in crates()[name]:
        if it in crates():
            found |= dict.fromkeys([*below(it), it])
    return list(found)


def library(name):
    """Where the library of a crate is."""
    return TOP / f"crates/{name}/out/rlib/{name}.rlib"


def lacking(name):
    """The crates below a crate whose libraries are not there."""
    return [it for it in below(name) if not (library(it) / "format").is_file()]


def words(verb, name):
    """The prover's words for a crate, which it reads in the present folder, over the libraries below."""
    root = "src/main.rt" if (TOP / f"crates/{name}/src/main.rt").is_file() else "src/lib.rt"
    line = [kit() / "bin/rattle", verb, "--crate-name", name, root]
    for it in ["std", *crates()[name]]:
        line += ["--extern", f"{it}={library(it) if it in crates() else kit() / f'rlibs/{it}.rlib'}"]
    for folder in [kit() / "rlibs", *[library(it).parent for it in below(name)]]:
        line += ["-L", f"dependency={folder}"]
    line += ["--antt-project", kit() / "rattle/logic/antt-project.json", "--logic-built", kit() / "logic_built"]
    return [*map(str, line), "--links", f"{name}="]
