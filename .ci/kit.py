"""What the scripts share: usage, counts of checks, files, runs, programs that are there, scripts as modules; the crates of crates.txt, and the words
with which the kit's `rattle` reads one of them over the libraries that stand built in crates/*/out/rlib."""
import importlib.machinery
import importlib.util
import os
import re
import shutil
import subprocess
import sys

ROOT = os.path.dirname(os.path.dirname(os.path.realpath(__file__)))
# How many checks passed, and how many failed.
counts = {True: 0, False: 0}


def usage():
    """Ends the script with what it says of itself, where its words are not known or ask for that."""
    os.execv(f"{ROOT}/tools/usage", ["usage", sys.argv[0], *sys.argv[1:]])


def says(is_right, line):
    """Counts a check, and prints a line of it."""
    counts[bool(is_right)] += 1
    print(line if is_right else f"{line}: FAILED", flush=True)


def check(what, came, wanted):
    """Counts a check. Of those that fail the first twenty are told."""
    is_right = came == wanted
    if is_right or counts[False] >= 20:
        counts[is_right] += 1
    else:
        says(False, f"{what}: {came!r:.500} in place of {wanted!r:.500}")


def ended():
    """Prints the last line, 'N passed, M failed'; returns the status."""
    print(f"{counts[True]} passed, {counts[False]} failed")
    return 1 if counts[False] else 0


def run(check_all, are_known=lambda words: not words):
    """Runs a script of checks on its words, whose last line says how many passed."""
    words = sys.argv[1:]
    if not are_known(words):
        usage()
    check_all(*words)
    sys.exit(ended())


def are_files(words):
    return all(map(os.path.isfile, words))


def read(path):
    with open(path, "rb") as file:
        return file.read()


def text(path):
    return read(path).decode()


def write(path, content):
    """Writes a text or bytes into a file, whose folder need not be there; returns its path."""
    os.makedirs(os.path.dirname(path) or ".", exist_ok=True)
    with open(path, "wb") as file:
        file.write(content.encode() if isinstance(content, str) else content)
    return path


# That of all files that have one.
VERSION = re.search(r'^#define JZ_VERSION "(.*)"$', text(f"{ROOT}/include/jeanzircon.h"), re.M)[1]


def renew(path, renewed):
    """Renews a page by what a function makes of it; with the word --check it only says whether the page is new."""
    words, page = sys.argv[1:], text(path)
    if words not in ([], ["--check"]):
        usage()
    new = renewed(page)
    if words and new != page:
        sys.exit(f"{os.path.relpath(path, ROOT)} is not what {os.path.relpath(os.path.realpath(sys.argv[0]), ROOT)} makes")
    if not words:
        write(path, new)


def linked(one, other):
    """Gives a file a second name, where that can be."""
    try:
        os.link(one, other)
    except OSError:
        shutil.copy2(one, other)


def ran(words, **how):
    """The status of a run and what it writes, also on standard error where it fails; 127 where there is no such program, None where it is late."""
    try:
        it = subprocess.run(words, **{"stdout": subprocess.PIPE, "stderr": subprocess.PIPE, **how})
    except subprocess.TimeoutExpired as late:
        return None, f"not in {late.timeout} s"
    except OSError as error:
        return 127, str(error)
    return it.returncode, (it.stdout + (it.stderr or b"") if it.returncode else it.stdout).decode()


def has(*programs):
    """Whether these programs are there; a line says which is not."""
    missing = [it for it in programs if not shutil.which(it)]
    if missing:
        print(f"no {missing[0]}, so what wants one is left out")
    return not missing


def is_current(sums):
    """Whether what tools/sums wrote these sums of is still the same."""
    return subprocess.run([f"{ROOT}/tools/current", sums], cwd=ROOT).returncode == 0


def instructions(program, words, profile="/dev/null", input=b""):
    """The instructions that a program takes for these words and this input (valgrind's callgrind, which no load changes)."""
    words = ["valgrind", "--tool=callgrind", f"--callgrind-out-file={profile}", program, *words]
    said = subprocess.run(words, input=input, stdout=subprocess.DEVNULL, stderr=subprocess.PIPE, check=False).stderr
    return int(re.search(rb"Collected : (\d+)", said)[1])


def loaded(path):
    """A script as a module, which has the script's name."""
    name = os.path.splitext(os.path.basename(path))[0].replace("-", "_")
    module = importlib.util.module_from_spec(importlib.util.spec_from_loader(name, importlib.machinery.SourceFileLoader(name, path)))
    module.__spec__.loader.exec_module(module)
    return module


def uses():
    """What each crate of crates.txt uses, in its order, and the names of the static libraries among them."""
    lines = [line.partition("#")[0].partition(":") for line in text(f"{ROOT}/crates.txt").splitlines()]
    heads = [(front.split(), rest.split()) for front, _, rest in lines if front.strip()]
    return {head[0]: libraries for head, libraries in heads}, {head[0] for head, _ in heads if "staticlib" in head}


def below(crate, used):
    """The crates of the repository that a crate is made of, without itself."""
    return set().union(*({it, *below(it, used)} for it in used[crate] if it in used))


def kit():
    """The folder of the kit."""
    return os.path.dirname(os.path.dirname(os.path.realpath(shutil.which("rt") or sys.exit("there is no rt on the PATH"))))


def words(crate, proves=True):
    """How `rattle` is called for a crate in its folder, or None where a library that it uses is not built."""
    used, static = uses()
    place, rlibs = kit(), {it: f"{ROOT}/crates/{it}/out/rlib" for it in below(crate, used)}
    if not all(os.path.isdir(f"{folder}/{it}.rlib") for it, folder in rlibs.items()):
        return None
    top = "main" if os.path.isfile(f"{ROOT}/crates/{crate}/src/main.rt") else "lib"
    found = ["--crate-name", crate, f"src/{top}.rt", "--links", f"{crate}="]
    found += ["--crate-type", "staticlib"] if crate in static else []
    for it in ["std", *used[crate]]:
        found += ["--extern", f"{it}={rlibs.get(it, f'{place}/rlibs')}/{it}.rlib"]
    for folder in [f"{place}/rlibs", *rlibs.values()]:
        found += ["-L", f"dependency={folder}"]
    found += ["--jobs", "1", "--logic-built", f"{place}/logic_built"] if proves else []
    return [*found, "--antt-project", f"{place}/rattle/logic/antt-project.json"]
