"""A system that is booted in a container: systemd as its first process, over a folder that stays as it is.

It needs root, systemd-nspawn (of Debian: systemd-container) and a folder with a system, such as this makes:

    debootstrap --variant=minbase --include=systemd,systemd-sysv,dbus,python3,iproute2,man-db bookworm FOLDER
"""

import os
import pathlib
import shutil
import subprocess
import tempfile
import time

TOP = pathlib.Path(__file__).resolve().parents[2]
PATIENCE = 60


def missing(root):
    """What is not at hand."""
    found = [name for name in ("systemd-nspawn", "nsenter") if not shutil.which(name)]
    found += [] if os.geteuid() == 0 else ["root"]
    found += [] if root and os.access(f"{root}/usr/lib/systemd/systemd", os.X_OK) else ["folder with a system (BOOT_ROOT)"]
    return found


class Booted:
    """The system, from its boot until it is ended. What it writes is gone then. The repository is its /project."""

    def __init__(self, root, name="booted", binds=(), more=()):
        words = ["systemd-nspawn", "-q", "-D", root, "--volatile=overlay", "--boot", "--register=no", "--keep-unit"]
        words += ["--private-network", "-M", name, "--console=pipe", f"--bind-ro={TOP}:/project"]
        words += [*(f"--bind={one}" for one in binds), *more]
        self.log = tempfile.TemporaryFile()
        self.nspawn = subprocess.Popen(words, stdin=subprocess.DEVNULL, stdout=self.log, stderr=self.log)
        self.leader = None
        until = time.monotonic() + PATIENCE
        while time.monotonic() < until and self.nspawn.poll() is None:
            children = pathlib.Path(f"/proc/{self.nspawn.pid}/task/{self.nspawn.pid}/children").read_text().split()
            if children:
                self.leader = children[0]
                if self.run("systemctl", "is-system-running")[1].strip() in ("running", "degraded"):
                    # (the folder's own /etc/hostname has set another one)
                    self.run("hostname", name)
                    return
            time.sleep(0.2)
        self.log.seek(0)
        told = self.log.read().decode(errors="replace")
        self.end()
        raise RuntimeError(f"the system does not boot: {told}")

    def run(self, *words, stdin="", **environment):
        """The status, standard output and standard error of a command in it."""
        whole = {"PATH": "/usr/local/sbin:/usr/local/bin:/usr/sbin:/usr/bin:/sbin:/bin", "LC_ALL": "C.UTF-8", **environment}
        inside = ["nsenter", "-t", self.leader, "-a", "env", "-i", *(f"{name}={value}" for name, value in whole.items())]
        ran = subprocess.run([*inside, *words], input=stdin, capture_output=True, text=True, timeout=120, check=False)
        return ran.returncode, ran.stdout, ran.stderr

    def shell(self, line, **environment):
        """The same of a line of the shell."""
        return self.run("sh", "-c", line, **environment)

    def take(self, path):
        """The bytes of a file in it."""
        return subprocess.run(["nsenter", "-t", self.leader, "-a", "cat", path], capture_output=True, check=True).stdout

    def put(self, path, data):
        """Makes a file in it of these bytes."""
        subprocess.run(["nsenter", "-t", self.leader, "-a", "tee", path], input=data, stdout=subprocess.DEVNULL, check=True)

    def end(self):
        self.nspawn.terminate()
        try:
            self.nspawn.wait(20)
        except subprocess.TimeoutExpired:
            self.nspawn.kill()
            self.nspawn.wait()
        self.log.close()

    def __enter__(self):
        return self

    def __exit__(self, *_):
        self.end()
