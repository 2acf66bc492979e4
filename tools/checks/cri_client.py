#!/usr/bin/env python3
"""Asks a runtime of Kubernetes' kind for pods, as kubelet does, over its CRI. It needs python3-grpcio of Debian.

    cri_client.py run NAME          starts a pod's sandbox, and prints its id
    cri_client.py list              prints the ids of all sandboxes, as `crictl pods -q --no-trunc` does
    cri_client.py address ID        prints the address of a sandbox
    cri_client.py remove ID         stops and removes a sandbox

The few messages are written by hand, so no generated code is needed.
"""
import sys

import grpc

SOCKET = "unix:///run/containerd/containerd.sock"


def field(number, data):
    """A member of a message that is a text or a message."""
    data = data.encode() if isinstance(data, str) else data
    size, length = b"", len(data)
    while length > 127:
        size, length = size + bytes([length & 127 | 128]), length >> 7
    return bytes([number << 3 | 2]) + size + bytes([length]) + data


def number_at(data, at):
    value = shift = 0
    while True:
        value |= (data[at] & 127) << shift
        shift, at = shift + 7, at + 1
        if data[at - 1] < 128:
            return value, at


def members(data):
    """The members of a message that are texts or messages, with their numbers."""
    at = 0
    while at < len(data):
        tag, at = number_at(data, at)
        value, at = number_at(data, at)
        if tag & 7 == 2:
            yield tag >> 3, data[at : at + value]
            at += value


def first(data, *path):
    for number in path:
        data = next((value for key, value in members(data) if key == number), b"")
    return data


def ask(method, request):
    with grpc.insecure_channel(SOCKET) as channel:
        call = channel.unary_unary(f"/runtime.v1.RuntimeService/{method}", lambda message: message, lambda message: message)
        return call(request, timeout=60)


def main():
    word, *given = sys.argv[1:]
    if word == "run":
        metadata = field(1, given[0]) + field(2, f"uid-{given[0]}") + field(3, "default")
        config = field(1, metadata) + field(2, given[0]) + field(3, "/tmp") + field(8, b"")
        print(first(ask("RunPodSandbox", field(1, config)), 1).decode())
    elif word == "list":
        for number, sandbox in members(ask("ListPodSandbox", b"")):
            if number == 1:
                print(first(sandbox, 1).decode())
    elif word == "address":
        print(first(ask("PodSandboxStatus", field(1, given[0])), 1, 5, 1).decode())
    else:
        ask("StopPodSandbox", field(1, given[0]))
        ask("RemovePodSandbox", field(1, given[0]))


try:
    main()
except grpc.RpcError as why:
    sys.exit(why.details())
