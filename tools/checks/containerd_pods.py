#!/usr/bin/env python3
"""Has containerd of Debian run pods behind the plugin, asked by its CRI as kubelet asks it.

    BOOT_ROOT=FOLDER tools/checks/containerd_pods.py [PROGRAM]      else release/ipam

It boots a system (booted.py says what that needs), whose folder has containerd, runc, python3-grpcio, busybox-static and
containernetworking-plugins of Debian too, and installs the package. It starts pods, some at once, looks that they have
addresses of their own and that the list of sandboxes has what containerd calls the plugin by, removes some, and cleans by
that list what is left behind by a pod whose DEL was never made. Prints each check that fails, and then `N passed, M failed`.
"""
import io
import hashlib
import json
import os
import pathlib
import sys
import tarfile
import tempfile
import time

from booted import TOP, Booted, missing
from package import packages

ROOT = os.environ.get("BOOT_ROOT")
NEEDED = ["usr/bin/containerd", "usr/sbin/runc", "usr/bin/busybox", "usr/lib/cni/bridge", "usr/lib/python3/dist-packages/grpc"]
PAUSE = "registry.k8s.io/pause:3.6"
CLIENT = "python3 /project/tools/checks/cri_client.py"
# (in a container no container has a group of its own, which runc allows to who is no root; and no overlay can be
# mounted over that of the system)
CONFIGURATION = f"""version = 2
[plugins."io.containerd.grpc.v1.cri"]
  sandbox_image = "{PAUSE}"
  disable_cgroup = true
  disable_apparmor = true
  restrict_oom_score_adj = true
  [plugins."io.containerd.grpc.v1.cri".containerd]
    snapshotter = "native"
    [plugins."io.containerd.grpc.v1.cri".containerd.runtimes.runc]
      runtime_type = "io.containerd.runc.v2"
      [plugins."io.containerd.grpc.v1.cri".containerd.runtimes.runc.options]
        BinaryName = "/usr/local/bin/runc"
  [plugins."io.containerd.grpc.v1.cri".cni]
    bin_dir = "/usr/lib/cni"
    conf_dir = "/etc/cni/net.d"
"""
counts = {"passed": 0, "failed": 0}


def check(what, holds, seen=""):
    counts["passed" if holds else "failed"] += 1
    if not holds:
        print(f"failed: {what}: {seen}", flush=True)


def archive(files):
    """A tar archive of these names with their bytes, or with the text of a link."""
    whole = io.BytesIO()
    with tarfile.open(fileobj=whole, mode="w") as tar:
        for name, data in files.items():
            one = tarfile.TarInfo(name)
            one.mode = 0o755
            if isinstance(data, str):
                one.type, one.linkname = tarfile.SYMTYPE, data
                tar.addfile(one)
            else:
                one.size = len(data)
                tar.addfile(one, io.BytesIO(data))
    return whole.getvalue()


def pause_image():
    """The image of a sandbox: a busybox that sleeps."""
    layer = archive({"bin/busybox": pathlib.Path(f"{ROOT}/usr/bin/busybox").read_bytes(), "bin/sleep": "busybox"})
    config = {
        "architecture": "amd64", "os": "linux", "config": {"Cmd": ["/bin/sleep", "100000"]},
        "rootfs": {"type": "layers", "diff_ids": [f"sha256:{hashlib.sha256(layer).hexdigest()}"]},
    }
    manifest = [{"Config": "config.json", "RepoTags": [PAUSE], "Layers": ["layer.tar"]}]
    return archive({"manifest.json": json.dumps(manifest).encode(), "config.json": json.dumps(config).encode(), "layer.tar": layer})


class User:
    def __init__(self, system):
        self.system = system

    def shell(self, line):
        return self.system.shell(line)

    def does(self, what, line):
        status, told, faults = self.shell(line)
        check(what, status == 0, (line, told, faults))
        return told

    def until(self, what, line):
        end = time.monotonic() + 20
        while (told := self.shell(line))[0] and time.monotonic() < end:
            time.sleep(0.3)
        check(what, told[0] == 0, told)

    def held(self):
        told = self.shell("ipam --daemon /run/ipam/ipam.sock get handle")[1]
        return {line.split()[0].removeprefix("handle/k8s-pod-network.") for line in told.splitlines()}

    def listed(self):
        return set(self.does("the list", f"{CLIENT} list").split())


def set_up(user, package):
    user.does("the package", f"dpkg -i /root/{package.name}")
    user.until("the daemon", "ipam --daemon /run/ipam/ipam.sock show")
    user.does("the network", "mkdir -p /etc/cni/net.d; cp /usr/share/ipam/10-pods.conflist /etc/cni/net.d; ipam --daemon /run/ipam/ipam.sock apply < /usr/share/ipam/pool.json")
    user.system.put("/etc/containerd/config.toml", CONFIGURATION.encode())
    user.system.put("/usr/local/bin/runc", b'#!/bin/sh\nexec /usr/sbin/runc --rootless=true "$@"\n')
    user.does("containerd", "chmod 755 /usr/local/bin/runc; systemctl restart containerd")
    user.system.put("/root/pause.tar", pause_image())
    user.until("the image", "ctr -n k8s.io images import --snapshotter native /root/pause.tar")


def play(user):
    one = user.does("a pod", f"{CLIENT} run one").strip()
    address = user.does("its address", f"{CLIENT} address {one}").strip()
    check("it is of the pool", address.startswith("192.168.0."), address)
    check("the plugin is called by the sandbox's id", user.held() == {one} == user.listed(), (user.held(), one))
    user.does("four pods at once", "set -e; cd /root; for at in 1 2 3 4; do " + CLIENT + " run p$at > id$at & ids=\"$ids $!\"; done; for at in $ids; do wait $at; done")
    many = user.does("their ids", "cat /root/id1 /root/id2 /root/id3 /root/id4").split()
    addresses = {user.does("an address", f"{CLIENT} address {pod}").strip() for pod in [one, *many]}
    check("each has its own", len(addresses) == 5, addresses)
    check("all are listed", user.held() == {one, *many} == user.listed(), user.held())
    user.does("a removal", f"{CLIENT} remove {many[0]}")
    check("its address is freed", user.held() == {one, *many[1:]}, user.held())

    # a pod that containerd does not know any more, as after a disk that lost its state
    configuration = {"cniVersion": "1.0.0", "name": "k8s-pod-network", "type": "x", "nodename": "node-a", "ipam": {"type": "calico-ipam"}}
    call = "CNI_COMMAND=ADD CNI_CONTAINERID=lost CNI_NETNS=/x CNI_IFNAME=eth0 CNI_PATH=/x /usr/lib/cni/calico-ipam"
    user.does("a pod that is lost", f"echo '{json.dumps(configuration)}' | {call}")
    words = "/usr/lib/ipam/collect --network k8s-pod-network --node node-a --grace 3"
    beside = user.does("cleaning beside an ADD", f"cd /root; {words} -- {CLIENT} list > freed & sleep 1; {CLIENT} run new > id; wait; cat freed id").split("\n")
    check("it frees the lost one alone", "lost" in beside[0] and beside[1] == "freed 1", beside)
    check("the others keep theirs", user.held() == {one, *many[1:], beside[2]} == user.listed(), (user.held(), beside))
    for pod in user.listed():
        user.does("a removal", f"{CLIENT} remove {pod}")
    check("nothing is held at the end", user.held() == set(), user.held())


def main():
    program = pathlib.Path(sys.argv[1] if len(sys.argv) > 1 else TOP / "release/ipam").resolve()
    lacks = missing(ROOT)
    lacks += [f"{ROOT}/{path}" for path in NEEDED if ROOT and not os.path.exists(f"{ROOT}/{path}")]
    if lacks:
        print(f"skipped: there is no {', no '.join(lacks)}")
        print("0 passed, 0 failed")
        return 0
    with tempfile.TemporaryDirectory() as folder:
        first, _ = (pathlib.Path(folder, pathlib.Path(path).name) for path in packages(program, folder))
        # (runc makes a keyring a container)
        with Booted(ROOT, "node-a", more=["--system-call-filter=@keyring"]) as system:
            system.put(f"/root/{first.name}", first.read_bytes())
            user = User(system)
            set_up(user, first)
            play(user)
    print(f"{counts['passed']} passed, {counts['failed']} failed")
    return counts["failed"] != 0


if __name__ == "__main__":
    sys.exit(main())
