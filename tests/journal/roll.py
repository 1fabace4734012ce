"""A play of forty hosts in nested groups, whose programs note what happens to them: it is started, broken off, loses its power, and goes on."""
import json
import os
import subprocess
import time

REGIONS, RACKS, HOSTS = ("e", "w"), 5, 4
FAILING = ("e1-2", "w3-0")


def rack(region, number):
    return [f"{region}{number}-{host}" for host in range(HOSTS)]


# Of each group its hosts and how many it may lose.
GROUPS = {f"{region}{number}": (rack(region, number), 1 + number % 2) for region in REGIONS for number in range(RACKS)}
GROUPS |= {region: ([host for number in range(RACKS) for host in rack(region, number)], 4) for region in REGIONS}
GROUPS["row"] = (GROUPS["e"][0] + GROUPS["w"][0], 7)
ALL_HOSTS = sorted(GROUPS["row"][0])
DOWN = ("running", "failed", "halted")


def inventory():
    def body(name, children):
        return {"vars": {"max_down": GROUPS[name][1]}, **children}

    regions = {region: body(region, {"children": {f"{region}{n}": body(f"{region}{n}", {"hosts": dict.fromkeys(rack(region, n))}) for n in range(RACKS)}}) for region in REGIONS}
    return json.dumps({"row": body("row", {"children": regions})}).encode()


class Roll:
    """The play in a folder of its own, with its journal and with what its programs noted. `image` is what was synced of the journal."""

    def __init__(self, program, preload, note, folder):
        self.program, self.preload, self.folder = program, preload, folder
        self.inventory, self.playbook, self.journal, self.notes, self.image = (os.path.join(folder, name) for name in ("inventory", "playbook", "journal", "notes", "image"))
        argv = [note, self.notes, "{{ inventory_hostname }}", "4", *FAILING]
        with open(self.inventory, "wb") as file:
            file.write(inventory())
        # It changes a host once; the restart that this calls for is a handler.
        change = {"command": {"argv": argv}, "register": "done", "changed_when": "done.stdout == 'changed'", "notify": "restart"}
        restart = {"name": "restart", "command": {"argv": [*argv[:3], "restart"]}}
        with open(self.playbook, "w") as file:
            json.dump([{"hosts": "all", "max_fail_percentage": 100, "tasks": [change], "handlers": [restart]}], file)

    def words(self, *more):
        return [self.program, "run", self.inventory, self.playbook, "--forks", "5", *more]

    def start(self, *more, **environment):
        """Starts it in a group of its own."""
        return subprocess.Popen(
            self.words(*more), stdin=subprocess.DEVNULL, stdout=subprocess.DEVNULL, stderr=subprocess.PIPE, start_new_session=True, env={**os.environ, **environment}
        )

    def ended(self, *more, **environment):
        """Its status and its errors; what was killed alone leaves programs that hold the errors open."""
        run = self.start(*more, **environment)
        run.wait(timeout=300)
        os.set_blocking(run.stderr.fileno(), False)
        errors = run.stderr.read() or b""
        run.stderr.close()
        return run.returncode, errors

    def disk(self, at, does):
        return {"LD_PRELOAD": self.preload, "DISK_AT": str(at), "DISK_DOES": does, "DISK_IMAGE": self.image}

    def kept(self):
        if not os.path.exists(self.journal):
            return b""
        with open(self.journal, "rb") as file:
            return file.read()

    def lose_power(self, more):
        """What was not synced is lost, but for so much of it, as a part of the whole."""
        text, image = self.kept(), b""
        if os.path.exists(self.image):
            with open(self.image, "rb") as file:
                image = file.read()
        assert text.startswith(image[: len(text)]), (text, image)
        with open(self.journal, "wb") as file:
            file.write(text[: len(image) + int(more * (len(text) - len(image)))])

    def noted(self):
        """What happened, in its order: a word and a host each."""
        if not os.path.exists(self.notes):
            return []
        with open(self.notes) as file:
            return [tuple(line.split()) for line in file.read().splitlines()]

    def add(self, word, host):
        """Notes that a host was mended; and from now on it doesn't fail."""
        open(f"{self.notes}.{host}", "w").close()
        with open(self.notes, "a") as file:
            file.write(f"{word} {host}\n")

    def settle(self):
        """Waits until no program of a killed run notes anything any more."""
        size = -1
        while size != (size := len(self.noted())):
            time.sleep(0.02)
