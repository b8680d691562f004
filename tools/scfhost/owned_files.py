"""Files: which users could have changed one, and what root alone could have changed."""
from __future__ import annotations

import os
import stat
from itertools import islice

from scftools.base.values import Pattern, unless_refused
from .ptrace import without_octal

# Stands for any user: what a folder or file has that others than its owner may write.
ANYONE = -1
# The most links on a path (path_resolution(7)).
MOST_LINKS = 40
# linux/sched.h, linux/mount.h
CLONE_NEWNS, MS_REC_PRIVATE, MNT_DETACH = 0x20000, 0x4000 | 1 << 18, 2
# A file system in user space (fuse(4)) with its place and the user who answers for it, in a line of
# /proc/self/mountinfo; of the characters that a user may choose the kernel escapes spaces, tabs and line feeds.
FUSE = Pattern(rb"(?:[^ ]+ ){4}([^ ]+) .* - fuse(?:\.[^ ]*)? [^ ]* (?:[^ ]*,)?user_id=([0-9]+)")


class UnreadableFile(Exception):
    """A file can't be read, and why."""


class Absent(UnreadableFile):
    """There is no such file."""


def users_mounts() -> dict[str, int]:
    """The places of file systems in user space of users, which may answer anything, or never, with their users."""
    # (all of it: users may mount so much that a part of it wouldn't tell)
    with open("/proc/self/mountinfo", "rb") as mounts:
        matches = [FUSE.match(line.rstrip(b"\n")) for line in mounts]
    return {os.fsdecode(without_octal(match[1])): int(match[2]) for match in matches
            if match and int(match[2]) not in (0, os.geteuid())}


def leave_users_mounts() -> None:
    """Goes where no user's file system in user space is: whoever reads files waits for none."""
    import ctypes  # pylint: disable=import-outside-toplevel

    library = ctypes.CDLL(None)
    if users_mounts() and (library.unshare(CLONE_NEWNS) or library.mount(b"none", b"/", None, MS_REC_PRIVATE, None)):
        raise OSError("no mount namespace can be made")
    while places := users_mounts():
        for place in places:
            # (what is below one goes with it)
            library.umount2(os.fsencode(place), MNT_DETACH)


def _unreadable(path: str, error: Exception) -> UnreadableFile:
    if isinstance(error, FileNotFoundError):
        return Absent(f"there is no file '{path}'")
    return UnreadableFile(f"'{path}' can't be read: {getattr(error, 'strerror', None) or error}")


def writer_of(path: str) -> int | None:
    """The user beside root who could put another file in place of the one at an absolute path, or change it; None if
    none could. Nothing that is a user's is looked into. Raises UnreadableFile."""
    mounts, place, parts, links = users_mounts(), "/", path.split("/")[::-1], 0
    if not path.startswith("/"):
        raise UnreadableFile(f"'{path}' isn't an absolute path")
    try:
        while parts and links <= MOST_LINKS:
            folder, place = place, os.path.normpath(os.path.join(place, parts.pop()))
            if place in mounts:
                return mounts[place]
            status = os.lstat(place)
            mode, is_link = status.st_mode, stat.S_ISLNK(status.st_mode)
            if status.st_uid not in (0, os.geteuid()):
                return status.st_uid
            # (the bits of the group may be those of an access list's mask, acl(5))
            is_of_others = mode & stat.S_IWOTH or mode & stat.S_IWGRP and (
                status.st_gid != 0 or unless_refused(b"", os.getxattr, place, "system.posix_acl_access"))
            if is_of_others and not is_link and not (stat.S_ISDIR(mode) and mode & stat.S_ISVTX):
                return ANYONE
            if is_link:
                target, links = os.readlink(place), links + 1
                parts += target.split("/")[::-1]
                place = "/" if target.startswith("/") else folder
    except (OSError, ValueError) as error:
        raise _unreadable(path, error) from error
    if links > MOST_LINKS:
        raise UnreadableFile(f"'{path}' leads through too many links")
    return None


def read_file(path: str, most: int) -> bytes:
    """The bytes of a regular file, at most so many. Raises UnreadableFile."""
    try:
        # (without waiting for a pipe, or for whoever holds a lease on it)
        descriptor = os.open(path, os.O_RDONLY | os.O_NONBLOCK | os.O_CLOEXEC)
        try:
            if not stat.S_ISREG(os.fstat(descriptor).st_mode):
                raise UnreadableFile(f"'{path}' isn't a regular file")
            data = os.read(descriptor, most + 1)
        finally:
            os.close(descriptor)
    except (OSError, ValueError) as error:
        raise _unreadable(path, error) from error
    if len(data) > most:
        raise UnreadableFile(f"'{path}' has more than {most} bytes")
    return data


def read_own(path: str, most: int) -> bytes:
    """The bytes of a file that only root, or the user of this tool, could have changed."""
    if (user := writer_of(path)) is not None:
        raise UnreadableFile(f"'{path}' may be changed by {'any user' if user == ANYONE else f'user {user}'}")
    return read_file(path, most)


def names_in(path: str, most: int) -> tuple[list[str], bool]:
    """The names in a folder, at most so many, and whether these are all; none where it isn't there."""
    try:
        with os.scandir(path) as entries:
            names = sorted(entry.name for entry in islice(entries, most + 1))
    except (OSError, ValueError) as error:
        if isinstance(error, FileNotFoundError):
            return [], True
        raise _unreadable(path, error) from error
    return names[:most], len(names) <= most
