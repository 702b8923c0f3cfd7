"""What the scripts of tools/ and bench/ share: the repository's files, and how `rt` and `rustc` are run."""
import argparse
import contextlib
import glob
import importlib.machinery
import importlib.util
import os
import pathlib
import re
import shutil
import signal
import subprocess
import sys
import tempfile
import threading
import time

TOP = os.path.dirname(os.path.dirname(os.path.abspath(__file__)))
CRATES = os.path.join(TOP, "crates")
SCRIPT = os.path.relpath(os.path.abspath(sys.argv[0]), TOP)


def refuse(why, status=2):
    """Ends the script with a line that says why."""
    print(f"{SCRIPT}: {why}", file=sys.stderr)
    sys.exit(status)


def told(faults, well):
    """Prints the faults, or if there are none what is well, and returns the status of the script."""
    print(*faults or [f"{SCRIPT}: {well}"], sep="\n")
    return 1 if faults else 0


def options(said, **flags):
    """Returns a parser of options, whose help is what the head of the script says, with these flags and their help."""
    parser = argparse.ArgumentParser(description=said, formatter_class=argparse.RawDescriptionHelpFormatter)
    for name, told_of in flags.items():
        parser.add_argument(f"--{name}", action="store_true", help=told_of)
    return parser


def count(said):
    """The type of an option that is a number from 1."""
    if int(said) < 1:
        raise ValueError
    return int(said)


def read(*path):
    """Returns the text of a file, or refuses."""
    try:
        return pathlib.Path(*path).read_text("utf-8")
    except (OSError, UnicodeDecodeError) as why:
        refuse(f"{os.path.join(*path)} can't be read: {why}")


def write(text, *path):
    """Writes a file, and makes the folders that it lies in."""
    os.makedirs(os.path.dirname(os.path.join(*path)), exist_ok=True)
    with open(os.path.join(*path), "w", encoding="utf-8") as file:
        file.write(text)


def need(*commands):
    """Refuses if a command is not there."""
    for name in commands:
        if shutil.which(name) is None:
            refuse(f"there is no command {name} on the path")


def git(*words):
    """Returns what git says of this repository, and None if there is no git, or it refuses."""
    try:
        ran = subprocess.run(["git", "-C", TOP, *words], capture_output=True, text=True)
    except OSError:
        return None
    return ran.stdout.strip() if ran.returncode == 0 else None


def script(path):
    """Returns another script as a module."""
    loader = importlib.machinery.SourceFileLoader(os.path.basename(path), path)
    module = importlib.util.module_from_spec(importlib.util.spec_from_loader(loader.name, loader))
    loader.exec_module(module)
    return module


def sources(crate):
    """Returns the paths of all files of code of a crate, which is given by its name or its folder."""
    return sorted(glob.glob(os.path.join(CRATES, crate, "src", "**", "*.rt"), recursive=True))


def named_crates():
    """Returns what each crate of crates.txt stands on."""
    lines = [line.split("#")[0].partition(":") for line in read(TOP, "crates.txt").splitlines()]
    return {name.split()[0]: rest.replace(",", " ").split() for name, _, rest in lines if name.strip()}


def below(crate):
    """Returns a crate and all crates of this repository that it stands on."""
    named = named_crates()
    return {crate}.union(*(below(name) for name in named[crate] if name in named))


@contextlib.contextmanager
def copied():
    """Gives the folder of the crates of a copy of the repository, without what was built."""
    with tempfile.TemporaryDirectory() as room:
        copy = os.path.join(room, "copy")
        shutil.copytree(TOP, copy, ignore=shutil.ignore_patterns("out", ".git"))
        yield os.path.join(copy, "crates")


def change(path, pairs):
    """Puts a text in the place of another that has to stand in the file once, for each pair."""
    text = read(path)
    for old, new in pairs:
        if text.count(old) != 1:
            refuse(f"{path} has this {text.count(old)} times, and not once: {old}")
        text = text.replace(old, new)
    write(text, path)


def optional(*path):
    """Returns the bytes of a file, and none if it is not there."""
    file = pathlib.Path(*path)
    return file.read_bytes() if file.exists() else b""


def child_of(run, word):
    """Returns number and words of the child that a process starts with this word, and None if it ends without one."""
    while run.poll() is None:
        with contextlib.suppress(OSError):  # a process that ended meanwhile
            for pid in pathlib.Path(f"/proc/{run.pid}/task/{run.pid}/children").read_text().split():
                words = pathlib.Path(f"/proc/{pid}/cmdline").read_text().split("\0")[:-1]
                if word in words:
                    return int(pid), words
        time.sleep(0.05)
    return None


def end_hint(run):
    """Ends the check that `rt try` has beside it. That takes two fifths of the processor time, and only tells of names
    that a proof will refuse."""
    if found := child_of(run, "no function"):
        with contextlib.suppress(ProcessLookupError):  # it may just have ended
            os.kill(found[0], signal.SIGKILL)


class Tried:
    """What `rt try` says of a crate: its status, its two streams, and whether the code came to its end."""

    def __init__(self, crate, *words, given=b""):
        """Tries the crate in this folder, with these words and this standard input."""
        streams = dict.fromkeys(["stdin", "stdout", "stderr"], subprocess.PIPE)
        with subprocess.Popen(["rt", "try", *words], cwd=crate, **streams) as run:
            threading.Thread(target=end_hint, args=[run], daemon=True).start()
            self.printed, self.said = run.communicate(given)
        self.status, self.has_ended = run.returncode, b"run=ended" in self.said

    def end(self):
        """Returns the last of what was said."""
        return (self.printed + self.said).decode(errors="replace")[-3000:]


def try_tests(crate, *words):
    """Returns for each test of the crate in this folder `ok`, or what is said of its failure."""
    tried = Tried(crate, "--test", *words)
    text = tried.printed.decode(errors="replace")
    ended = re.findall(r"^test (\S+) \.\.\. (ok|FAILED)\n((?: +.*\n|\n)*)", text, re.M)
    if not ended:
        refuse(f"{crate}: no test was run\n{tried.end()}")
    return {name: said if word == "FAILED" else word for name, word, said in ended}


def tests_of(crate):
    """Returns the names of the tests of a crate, which is given by its name or its folder, each with its file."""
    source, found = os.path.join(CRATES, crate, "src"), {}
    for path in sources(crate):
        module = os.path.relpath(path, source)[:-len(".rt")].replace(os.sep, "::")
        for test in re.findall(r"^#\[test\]\nfn (\w+)", read(path), re.M):
            found[f"{module}::{test}"] = path
    return found


def try_program(crate, *words):
    """Tries the program of the crate in this folder, with its `data`, `args` and `stdin`, as its test does."""
    data, words = os.path.join(crate, "data"), list(words)
    for path in filter(os.path.isfile, sorted(glob.glob(os.path.join(data, "**"), recursive=True))):
        words += ["--data", f"{os.path.relpath(path, data)}={path}"]
    args = optional(crate, "args").decode().splitlines()
    return Tried(crate, *words, "--", *args, given=optional(crate, "stdin"))


def take_out(crate, tests):
    """Takes these tests out of the crate in this folder; one that is not there is refused."""
    there = tests_of(crate)
    for test in tests:
        if test not in there:
            refuse(f"{os.path.basename(crate)} has no test {test}")
        name = test.split("::")[-1]
        pattern = rf"^(?:///?[^\n]*\n)*#\[test\]\nfn {name}\(.*?^}}\n"
        write(re.sub(pattern, "", read(there[test]), flags=re.M | re.S), there[test])


def build(crate, given=None):
    """Builds a program by `rt run`, which proves it first if it changed, and runs it once, on its `stdin` if nothing is
    given. Returns its path."""
    folder = os.path.join(CRATES, crate)
    stdin = optional(folder, "stdin") if given is None else given
    ran = subprocess.run(["rt", "run"], cwd=folder, input=stdin, capture_output=True)
    program = os.path.join(folder, "out", crate)
    if ran.returncode or not os.path.exists(program):
        refuse(f"rt run could not build {crate}:\n{ran.stderr.decode(errors='replace')[-3000:]}")
    return program


def rustc(*words):
    """Runs rustc, or refuses what it refuses."""
    built = subprocess.run(["rustc", "-O", *words], capture_output=True, text=True)
    if built.returncode:
        refuse(f"rustc failed:\n{built.stderr}")


def rust_program(folder, source, crate=None, *words):
    """Builds a Rust program, of bench/ or at a whole path, over async-once-cell if its file src/lib.rs is given, and
    returns its path."""
    program, over = os.path.join(folder, "over_crate" if crate else "alone"), []
    if crate:
        library = os.path.join(folder, "libasync_once_cell.rlib")
        kind = ["--crate-name", "async_once_cell", "--crate-type", "rlib", "--cfg", 'feature="std"']
        rustc("--edition", "2021", *kind, "--cap-lints", "allow", "-o", library, crate)
        over = ["--extern", f"async_once_cell={library}"]
    rustc("--edition", "2024", *over, *words, "-o", program, os.path.join(TOP, "bench", source))
    return program
