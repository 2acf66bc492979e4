#!/usr/bin/env python3
"""Restores a backup under the unit of systemd, by the very steps of docs/OPERATING.md.

    BOOT_ROOT=FOLDER tools/checks/restore.py [PROGRAM]      else release/ipam

It boots a system (see booted.py, which says what that needs), starts the unit by the steps of the same page, gives
addresses, makes a backup, gives another address, and breaks the database. It looks that files that are only copied
back stop the unit, that the steps bring it up again with the rows of the backup, and that the address that was given
since is not given again. Prints each check that fails, and then `N passed, M failed`.
"""
import json
import os
import pathlib
import re
import sys

from booted import TOP, Booted, missing

ROOT = os.environ.get("BOOT_ROOT")
OPERATING = (TOP / "docs/OPERATING.md").read_text()
CALL = {"CNI_IFNAME": "eth0", "CNI_NETNS": "/x", "CNI_PATH": "/x"}
counts = {"passed": 0, "failed": 0}


def check(what, holds, seen=""):
    counts["passed" if holds else "failed"] += 1
    if not holds:
        print(f"failed: {what}: {seen}", flush=True)


def steps(heading):
    """The first commands under this heading, whose program is the one that is tried."""
    section = OPERATING.split(f"\n### {heading}\n", 1)[1]
    return re.search(r"```sh\n(.*?)```", section, re.S).group(1)


class Daemon:
    """The unit of the system."""

    def __init__(self, system):
        self.system = system

    def shell(self, line):
        """Like the page's reader: as root, with the program of /usr/local/bin, in the repository."""
        return self.system.shell(f"cd /project && set -e && {line}")

    def call(self, command, pod):
        configuration = {"cniVersion": "1.0.0", "name": "k8s-pod-network", "type": "calico", "nodename": "a", "ipam": {"type": "calico-ipam"}}
        words = ["/usr/local/bin/ipam", "call", "/run/ipam/ipam.sock"]
        _, told, _ = self.system.run(*words, stdin=json.dumps(configuration), CNI_COMMAND=command, CNI_CONTAINERID=pod, **CALL)
        reply = json.loads(told or "{}")
        return reply["ips"][0]["address"].split("/")[0] if "ips" in reply else reply

    def is_up(self):
        """Whether it answers within some seconds."""
        look = "for at in $(seq 40); do ipam --daemon /run/ipam/ipam.sock show >/dev/null && exit; sleep 0.2; done; exit 1"
        return self.shell(look)[0] == 0

    def handles(self):
        told = self.shell("ipam --daemon /run/ipam/ipam.sock get handle")[1]
        return [line.split()[0].rpartition(".")[2] for line in told.splitlines()]


def start(daemon, program):
    """The steps of the page up to the pools, with this program as release/ipam, and without the plugin."""
    lines = [line for line in steps("As a service").splitlines() if "./ipam install" not in line]
    lines = [line.replace("release/ipam", "/tried/ipam").replace("./ipam ", "ipam ") for line in lines]
    at = next(at for at, line in enumerate(lines) if " apply " in line)
    status, told, faults = daemon.shell("\n".join(lines[:at]))
    check("the steps start the unit", status == 0, (told, faults))
    check("the daemon answers", daemon.is_up(), daemon.shell("journalctl -u ipam --no-pager")[1])
    status, told, faults = daemon.shell(lines[at])
    check("the pools are applied", status == 0, (told, faults))


def play(daemon):
    given = {pod: daemon.call("ADD", pod) for pod in ("c1", "c2")}
    daemon.shell("mkdir /backup; ipam --daemon /run/ipam/ipam.sock backup /backup/ipam.db")
    since = daemon.call("ADD", "c3")
    check("addresses are given", len({*given.values(), since}) == 3, (given, since))
    daemon.shell("systemctl stop ipam; for at in /var/lib/ipam/ipam.db*; do echo no database > $at; done")

    # files that are only copied back
    daemon.shell("systemctl reset-failed ipam; rm -f /var/lib/ipam/ipam.db*; cp /backup/ipam.db* /var/lib/ipam/; systemctl start ipam || true; sleep 3")
    log = daemon.shell("journalctl -u ipam --no-pager")[1]
    check("files of root stop the unit", "no permission" in log, log)

    daemon.shell("systemctl stop ipam; systemctl reset-failed ipam || true")
    ours = steps("Restore").replace("< in-use", "< /backup/in-use")
    status, told, faults = daemon.shell(f"echo {since} > /backup/in-use\n{ours}")
    check("the steps of the restore", status == 0, (told, faults))
    check("the audit of the copy", "blocks 1 owners 2 handles 2\n" in told, told)
    check("the daemon is up", daemon.is_up(), daemon.shell("journalctl -u ipam --no-pager")[1])
    check("the rows are those of the backup", daemon.handles() == ["c1", "c2"], daemon.handles())
    new = [daemon.call("ADD", f"d{at}") for at in range(5)]
    check("what was given since is not given again", since not in new and not set(given.values()) & set(new), (new, since, given))
    files = daemon.shell("stat -c '%U:%G %a' /var/lib/ipam/. /var/lib/ipam/ipam.db /var/lib/ipam/ipam.db-wal")[1].split("\n")
    check("the owner and the modes", len({line.split(" ")[0] for line in files[:3]}) == 1 and files[1].endswith(" 640"), files)
    status, told, faults = daemon.shell("ipam --daemon /run/ipam/ipam.sock unreserve since-the-backup-1")
    check("the reservation is taken back", (status, told) == (0, "unreserved\n"), (told, faults))
    check("the daemon goes on after a restart", daemon.shell("systemctl restart ipam")[0] == 0 and daemon.is_up())
    check("its rows are there", daemon.handles() == sorted(["c1", "c2", *(f"d{at}" for at in range(5))]), daemon.handles())


def main():
    program = pathlib.Path(sys.argv[1] if len(sys.argv) > 1 else TOP / "release/ipam").resolve()
    if lacks := missing(ROOT):
        print(f"skipped: there is no {', no '.join(lacks)}")
        print("0 passed, 0 failed")
        return 0
    with Booted(ROOT, binds=[f"{program}:/tried/ipam"]) as system:
        daemon = Daemon(system)
        start(daemon, program)
        play(daemon)
    print(f"{counts['passed']} passed, {counts['failed']} failed")
    return counts["failed"] != 0


if __name__ == "__main__":
    sys.exit(main())
