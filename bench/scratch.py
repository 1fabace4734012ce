"""What the benches share: programs of their own in a scratch repository, and inventories."""
import os
import shutil
import subprocess
import sys

TOP = os.path.dirname(os.path.dirname(os.path.abspath(__file__)))
MIB = 1 << 20


def link(source, target):
    """A second name for the file, or a copy where the target lies on another disk: what was proved of a crate takes hundreds of MiB."""
    try:
        os.link(source, target)
    except OSError:
        shutil.copy2(source, target)


def build(folder, crates, name, needs, source, words, proofs={}):
    """Proves and builds a program over crates of the repository, in a repository of its own; it is run once with the words. Its proofs
    are texts by their paths."""
    for crate in crates:
        shutil.copytree(
            os.path.join(TOP, "crates", crate),
            os.path.join(folder, "crates", crate),
            ignore=shutil.ignore_patterns("must-fail", "edits", "incremental"),
            copy_function=link,
        )
    shutil.copy(os.path.join(TOP, "HANDLES"), folder)
    subprocess.run(["git", "init", "-q", "."], cwd=folder, check=True)
    with open(os.path.join(TOP, "crates.txt")) as table:
        lines = [line for line in table if line.split(":")[0].strip() in crates]
    with open(os.path.join(folder, "crates.txt"), "w") as table:
        table.writelines(lines + [f"{name}: {needs}\n"])
    os.makedirs(os.path.join(folder, "crates", name, "src"))
    with open(os.path.join(folder, "crates", name, "src", "main.rt"), "w") as main:
        main.write(source)
    for path, text in proofs.items():
        proof = os.path.join(folder, "crates", name, "proofs", path)
        os.makedirs(os.path.dirname(proof), exist_ok=True)
        with open(proof, "w") as file:
            file.write(text)
    done = subprocess.run(
        ["rt", "run", "--"] + words,
        cwd=os.path.join(folder, "crates", name),
        stdin=subprocess.DEVNULL,
        stdout=subprocess.PIPE,
        stderr=subprocess.STDOUT,
        text=True,
    )
    program = os.path.join(folder, "crates", name, "out", name)
    if not os.path.exists(program):
        sys.exit(done.stdout[-4000:])
    return program


def crates_below(name):
    """The crate and all crates of the repository that it stands on."""
    with open(os.path.join(TOP, "crates.txt")) as table:
        needs = dict(line.split(":", 1) for line in table if ":" in line and not line.startswith("#"))
    found, open_ends = [], [name]
    while open_ends:
        crate = open_ends.pop()
        if crate in needs and crate not in found:
            found.append(crate)
            open_ends += needs[crate].split()
    return found


def resident(process):
    """The greatest resident size so far of a process that lives, in MiB. What `wait4` tells of a child is at least the size of the
    process that made it, which may hold the text."""
    with open(f"/proc/{process}/status") as status:
        return next(int(line.split()[1]) for line in status if line.startswith("VmHWM")) / 1024


def members(count, member):
    return ",".join(member(number) for number in range(count))


def small_groups(_size):
    """4,096 hosts in 1,024 groups, `all` among them."""
    hosts = lambda group: members(4, lambda h: f'"h{group:04}-{h}":{{"rank":{h},"down":false}}')
    first = hosts(0)
    return '{"all":{"hosts":{%s}},%s}' % (
        first,
        members(1023, lambda g: f'"g{g + 1:04}":{{"vars":{{"max_down":2}},"hosts":{{{hosts(g + 1)}}}}}'),
    )


def valid(size, most=16384):
    """So many hosts, each with so many variables that the text is about as large as that."""
    variable = lambda v: f'"name{v:04}":"a value of some thirty bytes {v:04}"'
    variables = members((size // most - 12) // (len(variable(0)) + 1), variable)
    return '{"all":{"hosts":{%s}}}' % members(most, lambda h: f'"h{h:05}":{{{variables}}}')
