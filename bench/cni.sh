#!/usr/bin/env bash
# Times CNI ADD and DEL as processes, by the plugin and by a daemon's client, beside host-local's, of Debian's
# package containernetworking-plugins.
set -eu
top=$(cd "$(dirname "$0")/.." && pwd)
local=${HOST_LOCAL:-/usr/lib/cni/host-local}
[ -x "$local" ] || { echo "bench/cni.sh: there is no $local: install containernetworking-plugins, or name it in HOST_LOCAL" >&2; exit 1; }
program=$("$top/bench/program.sh")
exec python3 "$top/bench/cni.py" "$program" "$local" "$@"
