#!/usr/bin/env python3
"""Puts the proved program, its launcher and what belongs to them below a folder, or into an archive.

  package.py --install PREFIX   below PREFIX: bin, lib, share/man, completions, share/minizinc
  package.py --pack FILE        an archive, by tar and gzip, of a folder that runs where it is unpacked and can install

ABT_PROGRAM names the program. Beside sources their sums are taken, for whoever wants to know what a program is made of.
"""
import hashlib
import json
import os
import shlex
import shutil
import sys
import tarfile
import tempfile

import completions
import lines
import manual

HERE = os.path.dirname(os.path.realpath(__file__))
TOP = os.path.dirname(HERE)
# What a package has beside the program, so far as it is there.
DOCS = ["CLAIMS.md", "COMMANDS.md", "COSTS.md", "DEFINITIONS.md", "FORMATS.md", "GLOSSARY.md", "MINIZINC.md", "THEORY.md", "TUTORIAL.md"]
FILES = ["abt", "README.md", "CHANGELOG.md", "CITATION.cff", "LICENSE", "docs/page.png", *(f"docs/{name}" for name in DOCS)]
FOLDERS = ["launcher", "minizinc", "examples", "picture"]


class Refused(Exception):
    """Why nothing was made."""


def main(words):
    """Does what the words ask for, and returns the status."""
    try:
        told = install(os.path.abspath(words[1])) if words[0] == "--install" else pack(words[1])
    except Refused as why:
        told = [str(why)]
    except OSError as error:
        told = [f"{error.filename or words[1]}: {error.strerror}"]
    else:
        print("\n".join(told))
        return 0
    print(*(f"abt: {it}" for it in told), sep="\n", file=sys.stderr)
    return 6


# ---- what a package is made of


def stage(folder):
    """Makes a folder with the program, the launcher, MiniZinc's files, documents and sums."""
    os.makedirs(folder)
    shutil.copy(os.environ["ABT_PROGRAM"], f"{folder}/program")
    for name in FILES:
        if os.path.isfile(f"{TOP}/{name}"):
            os.makedirs(os.path.dirname(f"{folder}/{name}"), exist_ok=True)
            shutil.copy(f"{TOP}/{name}", f"{folder}/{name}")
    for name in FOLDERS:
        leave = shutil.ignore_patterns("__pycache__", "check.sh", "build.sh", "tests")
        shutil.copytree(f"{TOP}/{name}", f"{folder}/{name}", ignore=leave)
    with open(f"{folder}/SOURCES", "w", encoding="utf-8") as it:
        it.write(sums_of_sources())
    with open(f"{folder}/SUMS", "w", encoding="utf-8") as it:
        it.write(sums_of(folder))


def version():
    """Returns the program's version and the toolchain's line."""
    with open(f"{HERE}/version.txt", encoding="utf-8") as it:
        return it.read().splitlines()


def sums_of_sources():
    """Returns the sum of each source that the program is made of, as sha256sum writes them at the top of a clone."""
    if not os.path.exists(f"{TOP}/crates.txt"):
        with open(f"{TOP}/SOURCES", encoding="utf-8") as it:
            return it.read()
    tops = ["crates.txt", "HANDLES"]
    tops += [f"crates/{name}/{part}" for name in os.environ["ABT_CRATES"].split() for part in ("src", "specs", "proofs")]
    return "".join(f"{sum_of(f'{TOP}/{name}')}  {name}\n" for top in tops for name in files_below(TOP, top))


def sums_of(folder):
    """Returns version, toolchain and the sum of each file of the folder, which `sha256sum -c SUMS` compares there."""
    head = "".join(f"# {it}\n" for it in [*version(), "SOURCES has the sums of what the program is made of"])
    return head + "".join(f"{sum_of(f'{folder}/{name}')}  {name}\n" for name in files_below(folder, "."))


def files_below(folder, name):
    """Returns the file, or the files below the folder of this name, in rising order, by their names from `folder` on."""
    if os.path.isfile(f"{folder}/{name}"):
        return [name]
    walked = [os.path.join(at, it) for at, _, found in os.walk(f"{folder}/{name}") for it in found]
    return sorted(os.path.relpath(it, folder) for it in walked if os.path.basename(it) != "SUMS")


def sum_of(name):
    """Returns the sum of a file."""
    with open(name, "rb") as it:
        return hashlib.sha256(it.read()).hexdigest()


def shares(rows):
    """Returns the texts that stand below share, by their names."""
    return {
        "man/man1/abt.1": manual.page(rows, HERE, version()),
        "bash-completion/completions/abt": completions.bash(rows),
        "zsh/site-functions/_abt": completions.zsh(rows),
        "fish/vendor_completions.d/abt.fish": completions.fish(rows),
    }


def write_shares(folder, texts):
    """Writes texts below a folder."""
    for name, text in texts.items():
        os.makedirs(os.path.dirname(f"{folder}/{name}"), exist_ok=True)
        with open(f"{folder}/{name}", "w", encoding="utf-8") as it:
            it.write(text)


# ---- installed, and packed


def install(prefix):
    """Installs below a folder, in the place of what was installed there before, and returns what is told."""
    if not prefix.isprintable():
        raise Refused("the folder's name has characters that cannot be seen")
    made, link = f"{prefix}/lib/abt", f"{prefix}/bin/abt"
    if os.path.lexists(made) and not os.path.exists(f"{made}/SUMS"):
        raise Refused(f"{made} is there, and is no installed abt: nothing was changed")
    if os.path.lexists(link) and not os.path.islink(link):
        raise Refused(f"{link} is there, and is no link: nothing was changed")
    os.makedirs(f"{prefix}/lib", exist_ok=True)
    with tempfile.TemporaryDirectory(prefix=".abt-", dir=f"{prefix}/lib") as room:
        stage(f"{room}/abt")
        if os.path.lexists(made):
            os.rename(made, f"{room}/before")
        os.rename(f"{room}/abt", made)
    os.makedirs(f"{prefix}/bin", exist_ok=True)
    if os.path.lexists(link):
        os.remove(link)
    os.symlink("../lib/abt/abt", link)
    texts = shares(lines.all_rows(f"{made}/launcher"))
    write_shares(f"{prefix}/share", {**texts, "minizinc/solvers/abt.msc": configuration(made)})
    return [
        f"installed {' '.join(version()[0].split()[:2])} below {prefix}: bin/abt, lib/abt, share",
        f"on the path: export PATH={shlex.quote(prefix)}/bin:$PATH",
        f"for MiniZinc: export MZN_SOLVER_PATH={shlex.quote(prefix)}/share/minizinc/solvers",
    ]


def configuration(made):
    """Returns MiniZinc's configuration with absolute names."""
    with open(f"{made}/minizinc/abt.msc", encoding="utf-8") as it:
        found = json.load(it)
    for name in ("mznlib", "executable"):
        found[name] = f"{made}/minizinc/{found[name]}"
    return json.dumps(found, indent=2) + "\n"


def pack(file):
    """Writes the archive, whole or not at all, and returns what is told."""
    name = "-".join(version()[0].split()[:2])
    with tempfile.TemporaryDirectory(prefix="abt-") as room:
        stage(f"{room}/{name}")
        write_shares(f"{room}/{name}/share", shares(lines.all_rows(HERE)))
        with tarfile.open(f"{room}/archive", "w:gz") as it:
            it.add(f"{room}/{name}", name)
        shutil.copyfile(f"{room}/archive", f"{file}.new")
    os.replace(f"{file}.new", file)
    return [f"packed {name} into {file}: tar xzf {file}, and then {name}/abt, or {name}/abt --install PREFIX"]


if __name__ == "__main__":
    sys.exit(main(sys.argv[1:]))
