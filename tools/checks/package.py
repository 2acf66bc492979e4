#!/usr/bin/env python3
"""Makes the package, installs it on a system that it boots, uses it, upgrades it and removes it.

    BOOT_ROOT=FOLDER tools/checks/package.py [PROGRAM]      else release/ipam

It needs dpkg-deb and git here, and a system of Debian that can be booted: booted.py says what that takes. It looks
that the unit runs after the installation, that the plugin gives addresses over the daemon, that the manual page has
each help text and each cell of the documents' tables, that an upgrade beside calls keeps the addresses and a changed
configuration, and that removing and purging leave the database, which a later installation goes on with. Prints how
many calls failed beside the upgrade, each check that fails, and then `N passed, M failed`.
"""
import importlib.machinery
import importlib.util
import json
import os
import pathlib
import re
import shutil
import subprocess
import sys
import tempfile

from booted import TOP, Booted, missing

ROOT = os.environ.get("BOOT_ROOT")
DATABASE = "/var/lib/ipam/ipam.db"
# A plugin's calls in a row, until a file is there; how many failed, and how many there were
LOAD = """
import json, os, subprocess, sys
words = {"CNI_IFNAME": "eth0", "CNI_NETNS": "/x", "CNI_PATH": "/usr/lib/cni"}
stdin = json.dumps({"cniVersion": "1.0.0", "name": "k8s-pod-network", "type": "x", "nodename": "a", "ipam": {"type": "calico-ipam"}}).encode()
failed = made = 0
while not os.path.exists("/tmp/stop"):
    for command in ("ADD", "DEL"):
        env = {**words, "CNI_COMMAND": command, "CNI_CONTAINERID": f"load{made // 2}"}
        failed += subprocess.run(["/usr/lib/cni/calico-ipam"], input=stdin, env=env, capture_output=True).returncode != 0
        made += 1
print(failed, "of", made)
"""
counts = {"passed": 0, "failed": 0}


def check(what, holds, seen=""):
    counts["passed" if holds else "failed"] += 1
    if not holds:
        print(f"failed: {what}: {seen}", flush=True)


def manual():
    """tools/manual as a module."""
    loader = importlib.machinery.SourceFileLoader("manual", str(TOP / "tools/manual"))
    module = importlib.util.module_from_spec(importlib.util.spec_from_loader("manual", loader))
    loader.exec_module(module)
    return module


def packages(program, folder):
    """The package, and one that differs in its version alone."""
    subprocess.run([TOP / "tools/package", "--try", program, folder], check=True, capture_output=True)
    first = next(pathlib.Path(folder).glob("*.deb"))
    subprocess.run(["dpkg-deb", "-R", first, f"{folder}/tree"], check=True)
    control = pathlib.Path(f"{folder}/tree/DEBIAN/control")
    control.write_text(re.sub(r"^(Version: .*)$", r"\1.1", control.read_text(), flags=re.M))
    later = f"{folder}/later.deb"
    subprocess.run(["dpkg-deb", "--root-owner-group", "-b", f"{folder}/tree", later], check=True, capture_output=True)
    shutil.rmtree(f"{folder}/tree")
    return f"/packages/{first.name}", "/packages/later.deb"


class User:
    """One who has the package alone."""

    def __init__(self, system):
        self.system = system

    def shell(self, line, **environment):
        return self.system.shell(line, **environment)

    def does(self, what, line):
        status, told, faults = self.shell(line)
        check(what, status == 0, (line, told, faults))
        return told

    def call(self, command, pod):
        configuration = {"cniVersion": "1.0.0", "name": "k8s-pod-network", "type": "calico", "nodename": "a", "ipam": {"type": "calico-ipam"}}
        words = {"CNI_COMMAND": command, "CNI_CONTAINERID": pod, "CNI_IFNAME": "eth0", "CNI_NETNS": "/x", "CNI_PATH": "/usr/lib/cni"}
        _, told, _ = self.system.run("/usr/lib/cni/calico-ipam", stdin=json.dumps(configuration), **words)
        reply = json.loads(told or "{}")
        return reply["ips"][0]["address"] if "ips" in reply else reply

    def is_up(self):
        look = "for at in $(seq 40); do ipam --daemon /run/ipam/ipam.sock show >/dev/null 2>&1 && exit; sleep 0.2; done; exit 1"
        return self.shell(look)[0] == 0

    def handles(self):
        told = self.shell("ipam --daemon /run/ipam/ipam.sock get handle")[1]
        return [line.split()[0].rpartition(".")[2] for line in told.splitlines()]


def look_at_manual(user, program):
    """Each help text and each cell of a table, spaces aside."""
    whole = user.does("the manual page", "MANWIDTH=150 man -P cat ipam 2>&1 || man --warnings -l /usr/share/man/man8/ipam.8.gz")
    seen = re.sub(r"\s+|\u2010\s*", "", whole)
    made = manual()
    texts = [made.helped(program, "--help").partition("\n")[2]]
    texts += [made.helped(program, word, "--help") for word in made.words_of(program)]
    texts += [made.plain(cell) for _, *where in made.TABLES for row in made.rows_of(*where)[1:] for cell in row]
    for text in texts:
        for line in text.splitlines():
            check("a line of the manual page", re.sub(r"\s+|\u2010", "", line) in seen, line)


def use(user):
    check("the unit runs", user.is_up(), user.shell("journalctl -u ipam --no-pager")[1])
    check("the unit is enabled", user.shell("systemctl is-enabled ipam")[1] == "enabled\n")
    check("the timer is not", user.shell("systemctl is-enabled ipam-collect.timer")[1] == "disabled\n")
    check("the files are whole", user.shell("dpkg --verify ipam")[1] == "", user.shell("dpkg --verify ipam"))
    user.does("pools", "ipam --daemon /run/ipam/ipam.sock apply < /usr/share/ipam/pool.json")
    check("the plugin gives addresses", [user.call("ADD", pod) for pod in ("c1", "c2")] == ["192.168.0.0/32", "192.168.0.1/32"])
    told = user.does("cleaning", "/usr/lib/ipam/collect --network k8s-pod-network --node a --grace 0 -- echo c1")
    check("what is freed", told == "freed 192.168.0.1 k8s-pod-network.c2\nfreed 1\n", told)
    told = user.does("routes", "/usr/lib/ipam/route_feed /run/ipam/ipam.sock a 10.0.0.1 --once")
    check("a route", told == "route replace 192.168.0.0/26 via 10.0.0.1\n", told)
    told = user.does("reservations", "echo 192.168.9.9 | /usr/lib/ipam/reservations r | ipam --daemon /run/ipam/ipam.sock apply")
    check("a reservation", told == "applied IPReservation r-1\n", told)


def upgrade(user, later):
    user.does("a changed configuration", "echo '# mine' >> /etc/ipam/calico-ipam.conf")
    before = user.shell("systemctl show -p MainPID ipam")[1]
    user.shell(f"cat > /tmp/load.py <<'E'\n{LOAD}\nE\npython3 /tmp/load.py > /tmp/failed 2>&1 </dev/null & echo $! > /tmp/load.pid")
    user.does("an upgrade", f"sleep 0.5; dpkg -i {later}; sleep 0.5; touch /tmp/stop")
    failed = user.does("calls beside it", "while [ -d /proc/$(cat /tmp/load.pid) ]; do sleep 0.2; done; cat /tmp/failed")
    print(f"{failed.strip()} calls beside the upgrade failed")
    check("each call beside the upgrade is answered", failed.startswith("0 of "), failed)
    check("the daemon is another one", user.is_up() and user.shell("systemctl show -p MainPID ipam")[1] != before)
    check("the address stays", "c1" in user.handles(), user.handles())
    check("a configuration that was changed stays", "# mine" in user.shell("cat /etc/ipam/calico-ipam.conf")[1])
    check("the plugin", user.call("ADD", "c3") not in ("192.168.0.0/32", {}), "")


def remove(user, later):
    user.does("removing", "dpkg -r ipam")
    left = user.shell("ls -d /usr/bin/ipam /usr/lib/cni/calico-ipam* /usr/lib/ipam /usr/lib/systemd/system/ipam* /run/ipam/ipam.sock 2>/dev/null")[1]
    check("nothing of the program is left", left == "", left)
    check("no unit runs", user.shell("systemctl is-active ipam")[1] != "active\n" and "ipam" not in user.shell("ps -e -o comm")[1].split())
    check("the database is left", user.shell(f"test -s {DATABASE}")[0] == 0)
    user.does("installing again", f"dpkg -i {later}")
    check("it goes on with the rows", user.is_up() and {"c1", "c3"} <= set(user.handles()), user.handles())
    told = user.does("purging", "dpkg -P ipam")
    check("what is said", "/var/lib/ipam is left" in told, told)
    check("the database is left after purging", user.shell(f"test -s {DATABASE}")[0] == 0)
    check("no configuration is left", user.shell("ls /etc/ipam /etc/systemd/system/*/ipam* 2>/dev/null")[1] == "")


def main():
    program = pathlib.Path(sys.argv[1] if len(sys.argv) > 1 else TOP / "release/ipam").resolve()
    lacks = missing(ROOT) + [name for name in ("dpkg-deb", "git") if not shutil.which(name)]
    if lacks:
        print(f"skipped: there is no {', no '.join(lacks)}")
        print("0 passed, 0 failed")
        return 0
    with tempfile.TemporaryDirectory() as folder:
        first, later = packages(program, folder)
        with Booted(ROOT, binds=[f"{folder}:/packages"]) as system:
            user = User(system)
            user.does("installing", f"dpkg -i {first}")
            use(user)
            look_at_manual(user, program)
            upgrade(user, later)
            remove(user, later)
    print(f"{counts['passed']} passed, {counts['failed']} failed")
    return counts["failed"] != 0


if __name__ == "__main__":
    sys.exit(main())
