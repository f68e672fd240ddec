"""What the measuring scripts share: where things stand, building a program of a text template, and the processor time of processes."""
import os
import resource
import shutil
import subprocess

BENCH = os.path.dirname(os.path.abspath(__file__))
TOP = os.path.dirname(BENCH)
PROGRAM = os.path.join(TOP, "crates", "dessert_cli", "out", "dessert_cli")
COUNTER = os.path.join(TOP, "examples", "cnt.v")


def crates_below(names):
    """The lines of crates.txt for these crates and for those that they stand on, by name."""
    with open(os.path.join(TOP, "crates.txt")) as file:
        lines = {line.split(":")[0]: line for line in file if ":" in line and not line.startswith("#")}
    found, left = {}, list(names)
    while left:
        name = left.pop()
        if name in lines and name not in found:
            found[name] = lines[name]
            left.extend(lines[name].split(":")[1].split())
    return found


def built_of_rattle(folder, name, below, proofs=None):
    """Builds NAME.rattle by `rt run` in a copy of the crates that it stands on, so that nothing of it stands in the repository's crates.
    `proofs` are files of its own proofs, by their paths."""
    crates = crates_below(below)
    with open(os.path.join(folder, "crates.txt"), "w") as file:
        file.writelines(list(crates.values()) + ["%s_bench: %s\n" % (name, " ".join(below))])
    for crate in crates:
        source = os.path.join(TOP, "crates", crate)
        shutil.copytree(source, os.path.join(folder, "crates", crate), ignore=shutil.ignore_patterns("out", "must-fail"))
    crate = os.path.join(folder, "crates", name + "_bench")
    os.makedirs(os.path.join(crate, "src"))
    shutil.copy(os.path.join(BENCH, name + ".rattle"), os.path.join(crate, "src", "main.rt"))
    for path, text in (proofs or {}).items():
        os.makedirs(os.path.dirname(os.path.join(crate, "proofs", path)), exist_ok=True)
        with open(os.path.join(crate, "proofs", path), "w") as file:
            file.write(text)
    done = subprocess.run(["rt", "run"], cwd=crate, stdout=subprocess.DEVNULL, stderr=subprocess.PIPE, text=True)
    if done.returncode:
        raise SystemExit("%s.rattle can't be built:\n%s" % (name, done.stderr))
    return os.path.join(crate, "out", name + "_bench")


def built_of_rust(folder, name):
    """Builds NAME.rs; none where there is no rustc."""
    if not shutil.which("rustc"):
        return None
    program = os.path.join(folder, name)
    subprocess.run(["rustc", "-O", "-o", program, os.path.join(BENCH, name + ".rs")], check=True)
    return program


def lines_of(command):
    return subprocess.run(command, check=True, stdout=subprocess.PIPE, text=True).stdout.splitlines()


def processor_time():
    """Seconds, user and system, of all processes that were run and have ended."""
    used = resource.getrusage(resource.RUSAGE_CHILDREN)
    return used.ru_utime + used.ru_stime
