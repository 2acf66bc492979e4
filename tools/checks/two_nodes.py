"""Two nodes as network namespaces with a link between them, and pods behind `bridge`, the plugin and `pod-routes`.

It needs root, iproute2 and Debian's containernetworking-plugins (CNI_PLUGINS names another folder than /usr/lib/cni).
"""

import json
import os
import pathlib
import shutil
import subprocess
import sys
import time

TOP = pathlib.Path(__file__).resolve().parents[2]
OTHERS = os.environ.get("CNI_PLUGINS", "/usr/lib/cni")
INSIDE = "NODES_IN_A_NAMESPACE"
NETWORK = "k8s-pod-network"
UNDERLAY = {"node-a": "10.99.0.1", "node-b": "10.99.0.2"}
# Listens at its address, tells that it does, and tells of the one who comes.
LISTEN = """
import socket, sys
server = socket.socket()
server.setsockopt(socket.SOL_SOCKET, socket.SO_REUSEADDR, 1)
server.bind((sys.argv[1], 7000))
server.listen()
print("listens", flush=True)
server.settimeout(3)
print(server.accept()[1][0])
"""
SPEAK = "import socket, sys; socket.create_connection((sys.argv[1], 7000), 2).close()"


def run(words, stdin=None, **variables):
    words = [os.fspath(word) for word in words]
    ran = subprocess.run(words, input=stdin, capture_output=True, text=True, env={**os.environ, **variables}, check=False)
    if ran.returncode:
        raise RuntimeError(f"{' '.join(words)}: {ran.stdout.strip()} {ran.stderr.strip()}")
    return ran.stdout


def enter_namespaces(script, needs=()):
    """Has the script run again in namespaces of its own. Says what is not at hand, and ends, where it can't."""
    if INSIDE in os.environ:
        for folder in ("/run", "/var/lib/cni"):
            os.makedirs(folder, exist_ok=True)
            run(["mount", "-t", "tmpfs", "tmpfs", folder])
        return
    missing = [name for name in ("ip", "nsenter", "unshare", *needs) if not shutil.which(name)]
    missing += [] if os.access(f"{OTHERS}/bridge", os.X_OK) else [f"{OTHERS}/bridge"]
    words = ["unshare", "-n", "-m", "-p", "-f", "--kill-child", "--mount-proc", "--propagation", "private"]
    if not missing and subprocess.run([*words, "true"], capture_output=True, check=False).returncode == 0:
        os.execvpe("unshare", [*words, sys.executable, script, *sys.argv[1:]], {**os.environ, INSIDE: "yes"})
    print(f"skipped: there is no {', no '.join(missing or ['network namespace (it takes root)'])}")
    print("0 passed, 0 failed")
    sys.exit(0)


class Node:
    """A node, with a plugin of its own in its folder, which the caller installs there."""

    def __init__(self, name, folder):
        self.name, self.folder, self.address, self.results = name, folder, UNDERLAY[name], {}
        self.enter = ["ip", "netns", "exec", name]
        os.makedirs(folder / "bin")
        shutil.copy(TOP / "examples/pod-routes", folder / "bin")
        self.list = json.loads((TOP / "examples/10-pods.conflist").read_text())
        for plugin in self.list["plugins"]:
            plugin |= {"nodename": name} if "nodename" in plugin else {}

    def call(self, word, pod, plugin):
        configuration = {"cniVersion": self.list["cniVersion"], "name": self.list["name"], **plugin}
        if self.results.get(pod):
            configuration["prevResult"] = self.results[pod]
        path = f"{self.folder}/bin:{OTHERS}"
        program = next(f for folder in path.split(":") if os.path.exists(f := f"{folder}/{plugin['type']}"))
        variables = {"CNI_CONTAINERID": pod, "CNI_NETNS": f"/run/netns/{pod}", "CNI_IFNAME": "eth0", "CNI_PATH": path}
        return run([*self.enter, program], json.dumps(configuration), CNI_COMMAND=word, **variables)

    def start(self, pod):
        """The address of a new pod."""
        run(["ip", "netns", "add", pod])
        try:
            for plugin in self.list["plugins"]:
                self.results[pod] = json.loads(self.call("ADD", pod, plugin))
        except RuntimeError:
            self.results.pop(pod, None)
            run(["ip", "netns", "del", pod])
            raise
        return self.results[pod]["ips"][0]["address"].split("/")[0]

    def remove(self, pod):
        for plugin in reversed(self.list["plugins"]):
            self.call("DEL", pod, plugin)
        run(["ip", "netns", "del", pod])


def two_nodes(folder):
    """node-a and node-b, each with an address on a link between them."""
    run(["ip", "link", "set", "lo", "up"])
    nodes = [Node(name, folder / name) for name in UNDERLAY]
    for node in nodes:
        run(["ip", "netns", "add", node.name])
        run([*node.enter, "ip", "link", "set", "lo", "up"])
    run(["ip", "link", "add", "eth0", "netns", "node-a", "type", "veth", "peer", "name", "eth0", "netns", "node-b"])
    for node in nodes:
        run([*node.enter, "ip", "address", "add", f"{node.address}/24", "dev", "eth0"])
        run([*node.enter, "ip", "link", "set", "eth0", "up"])
    return nodes


def reaches(client, server, address):
    """Who the pod `server` takes the pod `client` for, or None where it does not come."""
    enter = ["ip", "netns", "exec"]
    pipes = {"stdout": subprocess.PIPE, "stderr": subprocess.PIPE, "text": True}
    listener = subprocess.Popen([*enter, server, sys.executable, "-c", LISTEN, address], **pipes)
    if listener.stdout.readline() == "listens\n":
        subprocess.run([*enter, client, sys.executable, "-c", SPEAK, address], capture_output=True, check=False)
    return listener.communicate()[0].strip() or None


def until(holds, seconds=15):
    """Whether this holds within so many seconds."""
    end = time.monotonic() + seconds
    while not (held := holds()) and time.monotonic() < end:
        time.sleep(0.2)
    return held
