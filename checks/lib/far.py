"""A network namespace of its own, in which another address is far away. Each packet to it takes some milliseconds, and comes back to this machine as
one from there. So whoever connects to that address reaches a port of this machine, and each side sees the other at a distance.

It wants to be the superuser and /dev/net/tun. No part of the kernel has to delay anything, so it goes where `tc netem` doesn't.
"""

import contextlib
import ctypes
import fcntl
import heapq
import os
import select
import socket
import struct
import subprocess
import threading
import time

HERE, THERE = "10.9.0.1", "10.9.0.2"
NEW_NETWORK = 0x40000000
SET_INTERFACE, POINT_TO_POINT, NO_HEADER = 0x400454CA, 0x0001, 0x1000
# Where an IPv4 packet has its two addresses.
SOURCE, DESTINATION, BEHIND = 12, 16, 20


class NoNetwork(Exception):
    """What this machine lacks for such a namespace."""


def enter():
    """Moves this process into a namespace of its own, with its loopback and its far address. Returns the device whose packets are to be passed on."""
    if ctypes.CDLL(None, use_errno=True).unshare(NEW_NETWORK) != 0:
        raise NoNetwork(os.strerror(ctypes.get_errno()))
    try:
        device = os.open("/dev/net/tun", os.O_RDWR)
        fcntl.ioctl(device, SET_INTERFACE, struct.pack("16sH22x", b"far", POINT_TO_POINT | NO_HEADER))
        for words in (["link", "set", "lo", "up"], ["addr", "add", f"{HERE}/24", "dev", "far"], ["link", "set", "far", "up"]):
            subprocess.run(["ip", *words], check=True, capture_output=True)
    except (OSError, subprocess.CalledProcessError) as why:
        raise NoNetwork(str(why)) from why
    return device


def turned(packet):
    """The same packet from the far address to this machine. Its checksums stay right, since they are sums over both addresses."""
    return packet[:SOURCE] + packet[DESTINATION:BEHIND] + packet[SOURCE:DESTINATION] + packet[BEHIND:]


def is_meant(packet):
    return packet[0] >> 4 == 4 and packet[DESTINATION:BEHIND] == socket.inet_aton(THERE)


def pass_on(device, delay, is_over):
    """Passes packets on, each after the delay in seconds, until it is over."""
    waiting, number = [], 0
    while not is_over.is_set():
        now = time.monotonic()
        while waiting and waiting[0][0] <= now:
            os.write(device, heapq.heappop(waiting)[2])
        if select.select([device], [], [], min(0.05, max(waiting[0][0] - now, 0)) if waiting else 0.05)[0]:
            packet = os.read(device, 65536)
            if is_meant(packet):
                number += 1
                heapq.heappush(waiting, (time.monotonic() + delay, number, turned(packet)))


@contextlib.contextmanager
def far_away(device, delay):
    """The far address is so many seconds away in each direction."""
    is_over = threading.Event()
    passing = threading.Thread(target=pass_on, args=(device, delay, is_over))
    passing.start()
    try:
        yield
    finally:
        is_over.set()
        passing.join()
