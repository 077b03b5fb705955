"""Crates of this working copy, and their libraries as a run of rt ci on this machine proved them: what check_over_gate and wrong_bodies share."""
import fcntl
import importlib.machinery
import importlib.util
import os
import shutil
import subprocess
import sys

sys.dont_write_bytecode = True
ROOT = os.path.dirname(os.path.dirname(os.path.realpath(__file__)))


def load(name, path):
    loader = importlib.machinery.SourceFileLoader(name, path)
    module = importlib.util.module_from_spec(importlib.util.spec_from_loader(name, loader))
    sys.modules[name] = module
    loader.exec_module(module)
    return module


rt = load("rt", os.path.realpath(shutil.which("rt")))
rt.rtlib.Crate = rt.Crate
made_of = {}


def stamp(self):
    """The kit's sum of all that a crate is made from, made once in a process: the kit makes it anew for each path that leads to a library."""
    if self.folder not in made_of:
        total = rt.rtlib.hashlib.sha256(repr((self.said, self.has_c)).encode())
        for file in rt.rtlib.files_of(self.folder):
            with open(file, "rb") as it:
                total.update(repr((file.replace(self.folder, ""), it.read())).encode())
        total.update(repr([it.stamp() for it in self.deps]).encode())
        made_of[self.folder] = total.hexdigest()
    return made_of[self.folder]


def below(self):
    """The repository's libraries below a crate, each after those that it uses, found once for each number of libraries that the crate is known to name."""
    if getattr(self, "reached", (None,))[0] != len(self.deps):
        self.reached = len(self.deps), [*{it.folder: it for dep in self.deps for it in [*dep.below(), dep]}.values()]
    return [*self.reached[1]]


rt.Crate.stamp, rt.Crate.below = stamp, below


def in_turn():
    """Waits for what else goes on over the gate's libraries in this working copy. What it returns is to be held to the end."""
    lock = open(f"{ROOT}/.git/check_over_gate.lock", "w")
    fcntl.flock(lock, fcntl.LOCK_EX)
    return lock


def crates_here():
    rt.Crate.allowed = rt.handles_of(ROOT)
    return rt.rtlib.crates_below(ROOT)


def sums_of(crates):
    """What each crate's library is made from, by its name: its own files, and the sums of the libraries that it uses."""
    sums = {}
    for crate in crates:
        files = [(os.path.relpath(it, crate.folder), open(it, "rb").read()) for it in sorted(rt.rtlib.files_of(crate.folder))]
        own = rt.rtlib.hashlib.sha256(repr((crate.said, files)).encode()).hexdigest()
        sums[crate.name] = own, crate
    whole = {}

    def sum_of(name):
        if name not in whole:
            own, crate = sums[name]
            whole[name] = rt.rtlib.hashlib.sha256(repr([own, [sum_of(it.name) for it in crate.deps]]).encode()).hexdigest()
        return whole[name]

    for name in sums:
        sum_of(name)
    return whole


def given_by(gate, crate, sums, gate_sums):
    """Copies the library that rt ci has built in the gate's copy, where that is of the same files and its proof is said to have passed."""
    there = f"{gate}/crates/{crate.name}/out/rlib"
    if gate_sums.get(crate.name) != sums[crate.name] or not os.path.isdir(f"{there}/{crate.name}.rlib"):
        return False
    # (a library that is being written is no older than its last file; checked.a is written last)
    if subprocess.run(["pgrep", "-f", f"rattle build --crate-name {crate.name} src/lib.rt .* -o {gate}/crates/{crate.name}/out/rlib"], stdout=subprocess.DEVNULL).returncode == 0:
        return False
    os.makedirs(f"{crate.folder}/out", exist_ok=True)
    shutil.rmtree(f"{crate.folder}/out/rlib", ignore_errors=True)
    shutil.copytree(there, f"{crate.folder}/out/rlib")
    return True


def over_gate(name):
    """The crate of this name, with the libraries below it in their out/, and what each crate is made from. A library that isn't to be had is named, and there is no crate then."""
    gate = os.path.realpath(os.environ.get("GATE", f"{ROOT}/../gate"))
    # as under rt ci: crates load the statements of the libraries below them
    rt.Crate.cuts_libraries = True
    crates = crates_here()
    crate = next(it for it in crates if it.name == name)
    sums = sums_of(crates)
    gate_sums = sums_of(rt.rtlib.crates_below(gate)) if os.path.isdir(f"{gate}/crates") else {}
    lacking = []
    for below in sorted(crate.below(), key=lambda it: len(it.below())):
        mark = f"{below.folder}/out/rlib/stamp_over_gate"
        is_there = os.path.isdir(below.rlib) and os.path.isfile(mark) and open(mark).read() == sums[below.name]
        if not is_there:
            is_there = given_by(gate, below, sums, gate_sums)
            if is_there:
                with open(mark, "w") as it:
                    it.write(sums[below.name])
        if not is_there:
            lacking.append(below.name)
    if lacking:
        print("not proved by rt ci yet, nor built here:", *lacking)
    return (None if lacking else crate), sums
