"""Brings the loopback interface of a new network up, gives it addresses of IPv6, and executes a
command when they can be used. Until then the kernel looks whether another machine has them, on this
interface too, by a thread of its own.

    unshare -n python3 in_network.py ADDRESS.. -- COMMAND..
"""
import errno
import fcntl
import os
import socket
import struct
import sys
import time

IOCTLS = {"up": 0x8914, "address": 0x8916}  # SIOCSIFFLAGS, SIOCSIFADDR
UP, LOOPBACK = 1, 1  # IFF_UP, and the index of the interface


def is_usable(address):
    with socket.socket(socket.AF_INET6, socket.SOCK_DGRAM) as six:
        try:
            six.bind((address, 0))
        except OSError as error:
            if error.errno != errno.EADDRNOTAVAIL:
                raise
            return False
    return True


def main():
    end = sys.argv.index("--")
    with socket.socket(socket.AF_INET, socket.SOCK_DGRAM) as four:
        fcntl.ioctl(four, IOCTLS["up"], struct.pack("16sH14x", b"lo", UP))
    with socket.socket(socket.AF_INET6, socket.SOCK_DGRAM) as six:
        for address in sys.argv[1:end]:
            fcntl.ioctl(six, IOCTLS["address"], struct.pack(
                "=16sIi", socket.inet_pton(socket.AF_INET6, address), 128, LOOPBACK))
    while not all(map(is_usable, sys.argv[1:end])):
        time.sleep(0.001)
    os.execvp(sys.argv[end + 1], sys.argv[end + 1:])


if __name__ == "__main__":
    main()
