"""Tests of what reads logs: `needs`, `record` and `why`."""
import socket
import struct

from support.common import PATIENCE
from support.oci import ERRNO, entry

__all__ = ("Listener", "entry", "read_log", "rules", "where")
NETLINK_AUDIT, SO_RCVBUFFORCE, SECCOMP_RECORD = 9, 33, 1326


class Listener:
    """Listens to the kernel's audit records (linux/audit.h: AUDIT_NLGRP_READLOG), as journald does."""

    def __init__(self):
        self.socket = socket.socket(socket.AF_NETLINK, socket.SOCK_RAW, NETLINK_AUDIT)
        self.socket.setsockopt(socket.SOL_SOCKET, SO_RCVBUFFORCE, 1 << 24)
        self.socket.bind((0, 1))
        self.socket.settimeout(PATIENCE)

    def records_of(self, process):
        """The records of a process that seccomp has."""
        while True:
            message = self.socket.recv(1 << 16)
            text = message[16:].decode("latin-1").rstrip("\0\n")
            if struct.unpack_from("<IH", message)[1] == SECCOMP_RECORD and f" pid={process} " in text:
                yield f"audit: type=1326 {text}"


def where(index, op, value, two=None):
    """A condition; without a second value, as tools print it."""
    return {"index": index, "value": value, "op": f"SCMP_CMP_{op}", **({} if two is None else {"valueTwo": two})}


def rules(*entries, default=ERRNO, **members):
    """A profile."""
    return {"defaultAction": default, **members, "syscalls": list(entries)}


def read_log(text, looked_at=(), *tables):
    """A log that was read to its end, by the tables of architectures and the architecture of what doesn't say it."""
    from scftools.logs import traces  # pylint: disable=import-outside-toplevel

    log = traces.Trace(lambda *_: tuple(looked_at), *(tables or [{}]))
    for number, line in enumerate(text.split("\n"), 1):
        log.add(number, line)
    log.end()
    return log
