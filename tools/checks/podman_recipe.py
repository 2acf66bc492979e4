#!/usr/bin/env python3
"""Has podman of Debian, as it is installed by default with netavark, run containers behind the plugin.

    BOOT_ROOT=FOLDER tools/checks/podman_recipe.py [PROGRAM]      else release/ipam

It boots a system (booted.py says what that needs), whose folder has podman, netavark, busybox-static and
containernetworking-plugins of Debian too, and installs the package. It looks that podman does not find the network before the
commands of OPERATING's section on podman, and does after them; that `podman ps -a -q --no-trunc` lists what
podman calls the plugin by, of a pod too; and that cleaning by that list frees what `podman rm` left behind while the
daemon was stopped, and nothing else. Prints each check that fails, and then `N passed, M failed`.
"""
import os
import pathlib
import re
import sys
import tempfile
import time

from booted import TOP, Booted, missing
from package import packages

ROOT = os.environ.get("BOOT_ROOT")
NEEDED = ["usr/bin/podman", "usr/lib/podman/netavark", "usr/bin/busybox", "usr/lib/cni/bridge"]
# (in a container no container has a group of its own)
RUN = "podman run --cgroups=disabled --network k8s-pod-network"
counts = {"passed": 0, "failed": 0}


def check(what, holds, seen=""):
    counts["passed" if holds else "failed"] += 1
    if not holds:
        print(f"failed: {what}: {seen}", flush=True)


class User:
    def __init__(self, system):
        self.system = system

    def shell(self, line):
        return self.system.shell(line, HOME="/root")

    def held(self):
        told = self.shell("ipam --daemon /run/ipam/ipam.sock get handle")[1]
        return {line.split()[0].removeprefix("handle/k8s-pod-network.") for line in told.splitlines()}

    def listed(self):
        return set(self.shell("podman ps -a -q --no-trunc")[1].split())

    def wait_for_daemon(self):
        end = time.monotonic() + 10
        while self.shell("ipam --daemon /run/ipam/ipam.sock show")[0] and time.monotonic() < end:
            time.sleep(0.2)


def section(heading):
    text = (TOP / "docs/OPERATING.md").read_text().split(f"\n### {heading}\n", 1)[1]
    return re.search(r"```sh\n(.*?)```", text, re.S).group(1)


# (no overlay can be mounted over that of the system, which is one)
STORAGE = """[storage]
driver = "vfs"
runroot = "/run/containers/storage"
graphroot = "/var/lib/containers/storage"
"""


def play(user):
    user.shell(f"mkdir -p /etc/containers; printf '%s' '{STORAGE}' > /etc/containers/storage.conf")
    user.shell("mkdir -p /etc/cni/net.d /root/fs/bin; cp /usr/share/ipam/10-pods.conflist /etc/cni/net.d")
    user.shell("cp /bin/busybox /root/fs/bin; for at in ip sleep; do ln -s busybox /root/fs/bin/$at; done")
    user.shell("ipam --daemon /run/ipam/ipam.sock apply < /usr/share/ipam/pool.json")
    told = user.shell("podman info --format '{{.Host.NetworkBackend}}'")
    check("the default is netavark", told[1] == "netavark\n", told)
    user.shell("podman create --cgroups=disabled --name old --rootfs /root/fs sleep 600")
    told = user.shell(f"{RUN} --rm --rootfs /root/fs ip route")
    check("the network is not found", told[0] != 0 and "unable to find network" in told[2], told)

    told = user.shell(f"set -e; {section('podman')}")
    check("the commands of the section", told[:2] == (0, "cni\n"), told)
    told = user.shell(f"{RUN} --rm --rootfs /root/fs ip route")
    check("a container's routes", told[0] == 0 and "default via 169.254.1.1 dev eth0" in told[1], told)
    check("its address is freed", user.held() == set(), user.held())

    for name in ("x", "y"):
        told = user.shell(f"{RUN} -d --name {name} --rootfs /root/fs sleep 600")
        check(f"{name} starts", told[0] == 0, told)
    user.shell("printf '[containers]\\ncgroups=\"disabled\"\\n' >> /etc/containers/containers.conf")
    told = user.shell(
        "tar -C /root/fs -c . | podman import - localhost/base && podman pod create --name pod --network k8s-pod-network"
        " --infra-image localhost/base --infra-command 'sleep 600' && podman pod start pod"
    )
    check("a pod starts", told[0] == 0, told)
    live = user.held()
    check("what holds an address is listed", len(live) == 3 and live <= user.listed(), (live, user.listed()))

    user.shell("systemctl stop ipam")
    told = user.shell("podman rm -f -t 0 x")
    check("podman rm without the daemon ends with 0", told[0] == 0, told)
    user.shell("systemctl start ipam")
    user.wait_for_daemon()
    gone = user.held() - user.listed()
    check("an address is left behind", len(gone) == 1, (user.held(), user.listed()))
    words = "/usr/lib/ipam/collect --network k8s-pod-network --node node-a --grace 1"
    told = user.shell(f"{words} -- podman ps -a -q --no-trunc")
    check("cleaning frees it", told[0] == 0 and told[1].endswith("freed 1\n") and gone.pop() in told[1], told)
    check("and nothing else", user.held() < live and len(user.held()) == len(live) - 1, user.held())


def main():
    program = pathlib.Path(sys.argv[1] if len(sys.argv) > 1 else TOP / "release/ipam").resolve()
    lacks = missing(ROOT)
    lacks += [f"{ROOT}/{path}" for path in NEEDED if ROOT and not os.path.exists(f"{ROOT}/{path}")]
    if lacks:
        print(f"skipped: there is no {', no '.join(lacks)}")
        print("0 passed, 0 failed")
        return 0
    with tempfile.TemporaryDirectory() as folder:
        first, _ = (pathlib.Path(folder, pathlib.Path(path).name) for path in packages(program, folder))
        with Booted(ROOT, "node-a") as system:
            system.put(f"/root/{first.name}", first.read_bytes())
            user = User(system)
            told = user.shell(f"dpkg -i /root/{first.name}")
            check("the package", told[0] == 0, told)
            user.wait_for_daemon()
            play(user)
    print(f"{counts['passed']} passed, {counts['failed']} failed")
    return counts["failed"] != 0


if __name__ == "__main__":
    sys.exit(main())
