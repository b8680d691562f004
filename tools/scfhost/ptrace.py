"""The kernel's facts about processes, by ptrace(2) and by the files of /proc (proc(5))."""
from __future__ import annotations

import contextlib
import errno
import fcntl
import os
import struct
from collections.abc import Iterator

from scftools.base.values import Pattern, unless_refused
from scftools.model.calls import REGISTERS

# sys/ptrace.h
PTRACE_POKEUSER = 6
PTRACE_GETREGS = 12
PTRACE_DETACH = 17
PTRACE_SEIZE = 0x4206
PTRACE_INTERRUPT = 0x4207
PTRACE_SECCOMP_GET_FILTER = 0x420C
PTRACE_GET_SYSCALL_INFO = 0x420E
PTRACE_EVENT_STOP = 128
WORD_BYTES = 8
# linux/ptrace.h: the beginning of struct ptrace_syscall_info, which holds the architecture of the syscall.
SYSCALL_INFO = struct.Struct("<B3xI")
# linux/wait.h: wait for threads too. Since Linux 4.7 the kernel takes it for granted of what is traced; before, a
# thread that isn't the main one of its process is waited for by this alone.
WALL = 0x40000000
# linux/nsfs.h
NS_GET_PARENT, NS_GET_OWNER_UID = 0xB702, 0xB704
# linux/proc_ns.h: the numbers of the initial cgroup namespace, PID namespace and user namespace.
PROC_CGROUP_INIT_INO, PROC_PID_INIT_INO, PROC_USER_INIT_INO = 0xEFFFFFFB, 0xEFFFFFFC, 0xEFFFFFFD
# The numbers of execve and execveat: asm/unistd_64.h, with those of x32 (asm/unistd_x32.h), and asm/unistd_32.h.
EXECUTE, EXECUTE_32 = (59, 322, 0x40000208, 0x40000221), (11, 358)
# The most bytes of a file of /proc that are read.
MAX_CONTENTS = 1 << 20
# A byte of a path in a file of /proc that separates its fields.
ESCAPED_BYTE = Pattern(rb"\\([0-3][0-7]{2})")


def numbers_in(folder: str) -> list[int]:
    return sorted(int(name) for name in unless_refused([], os.listdir, folder) if name.isascii() and name.isdigit())


def contents(path: str) -> bytes:
    """The contents of a file of /proc; nothing if it isn't there."""
    try:
        with open(path, "rb") as file:
            return file.read(MAX_CONTENTS)
    except OSError:
        return b""


def stat_of(process: int) -> list[bytes]:
    """The fields of /proc/PROCESS/stat from the third one on, which is behind the name; none where it isn't there."""
    return contents(f"/proc/{process}/stat").rpartition(b")")[2].split()


def ticks_at_start(process: int) -> int | None:
    """When a process started, in the kernel's clock ticks (proc_pid_stat(5))."""
    fields = stat_of(process)
    return int(fields[19]) if len(fields) > 19 else None


def without_octal(field: bytes) -> bytes:
    """A path of mountinfo, in which the kernel writes some bytes as a backslash and three octal digits."""
    return ESCAPED_BYTE.sub(lambda match: bytes([int(match[1], 8)]), field)


def _group_mounts(process: int | str) -> Iterator[tuple[list[bytes], bytes, bytes]]:
    """The control group mounts that a process sees (proc_pid_mountinfo(5)): hierarchies, mounted group, and where."""
    for line in contents(f"/proc/{process}/mountinfo").split(b"\n"):
        fields, _, source = line.partition(b" - ")
        kind, _, options = source.partition(b" ")
        if kind in (b"cgroup", b"cgroup2") and fields.count(b" ") > 4:
            root, place = map(without_octal, fields.split(b" ")[3:5])
            yield [b""] if kind == b"cgroup2" else options.rpartition(b" ")[2].split(b","), root, place


def _namespace_files(process: int, kind: str) -> Iterator[int]:
    """The open namespace of a process, and those around it that this tool may see, one at a time, the innermost first
    (ioctl_ns(2)); none if there is no such process."""
    file = unless_refused(None, os.open, f"/proc/{process}/ns/{kind}", os.O_RDONLY | os.O_CLOEXEC)
    while file is not None:
        try:
            yield file
            around = fcntl.ioctl(file, NS_GET_PARENT)
        except OSError:
            return
        finally:
            os.close(file)
        file = around


def has_ended(status: dict[str, str]) -> bool:
    """Whether a thread with these lines of /proc/THREAD/status has ended, or there is none: a zombie, or dead."""
    return status.get("State", "Z")[:1] in "ZX"


def is_executing(thread: int) -> bool:
    """Whether a thread waits in execve(2) or execveat(2): then the kernel makes who wants to trace its process wait,
    too, however long that is (ptrace_attach of kernel/ptrace.c takes cred_guard_mutex)."""
    # proc_pid_syscall(5): the number, six arguments, the stack pointer and the program counter
    fields = contents(f"/proc/{thread}/syscall").split()
    if len(fields) != 9:
        return False
    is_32 = all(int(field, 16) >> 32 == 0 for field in fields[7:])
    return int(fields[0]) in (*EXECUTE, *(EXECUTE_32 if is_32 else ()))


class Kernel:
    """Questions to the kernel; raises OSError if a syscall fails."""

    # what is kept of the bytes of a filter
    keep = bytes

    def __init__(self) -> None:
        import ctypes  # pylint: disable=import-outside-toplevel

        self.ctypes, self.library = ctypes, ctypes.CDLL(None, use_errno=True)
        self.library.ptrace.restype = ctypes.c_long
        self.library.ptrace.argtypes = [ctypes.c_long, ctypes.c_long, ctypes.c_void_p, ctypes.c_void_p]
        # The tool that looks, which may do that in a child.
        self.tool = os.getpid()
        # The control groups of processes, by what the kernel shows of them.
        self.groups: dict[bytes, dict[str, bytes]] = {}

    def ptrace(self, request: int, thread: int, place: int | None, data: object) -> int:
        answer: int = self.library.ptrace(request, thread, place, data)
        if answer < 0:
            number = self.ctypes.get_errno()
            raise OSError(number, os.strerror(number))
        return answer

    def registers(self, thread: int) -> dict[str, int]:
        """The registers of a stopped thread."""
        room = (self.ctypes.c_uint64 * len(REGISTERS))()
        self.ptrace(PTRACE_GETREGS, thread, None, room)
        return dict(zip(REGISTERS, room))

    def set_result(self, thread: int, result: int) -> None:
        """Sets what the system call returns in which a thread is stopped."""
        self.ptrace(PTRACE_POKEUSER, thread, REGISTERS.index("rax") * WORD_BYTES, result & 0xFFFFFFFFFFFFFFFF)

    def architecture_of_call(self, thread: int) -> int | None:
        """The architecture of the system call in which a thread is stopped; None before Linux 5.3."""
        room = self.ctypes.create_string_buffer(SYSCALL_INFO.size)
        written = unless_refused(None, self.ptrace, PTRACE_GET_SYSCALL_INFO, thread, SYSCALL_INFO.size, room)
        return None if written is None else SYSCALL_INFO.unpack(room.raw)[1]

    def waits_for_supervisor(self, thread: int) -> bool:
        """Whether a thread waits for a supervisor's answer: in seccomp_do_user_notification of kernel/seccomp.c."""
        return b"seccomp" in contents(f"/proc/{thread}/wchan")

    def wait(self, thread: int) -> int | None:
        """The state that the thread stopped or ended in, 0 of one that isn't there, or None where it is in none yet."""
        stopped, state = unless_refused((thread, 0), os.waitpid, thread, WALL | os.WNOHANG)
        return state if stopped else None

    def is_proc_ours(self) -> bool:
        """Whether /proc is mounted, and is that of this tool's PID namespace."""
        return unless_refused("", os.readlink, "/proc/self") == str(os.getpid())

    def processes(self) -> list[int]:
        return numbers_in("/proc")

    def threads_of(self, process: int) -> list[int]:
        """The threads of a process; none where there is no such process."""
        return numbers_in(f"/proc/{process}/task")

    def status_of(self, thread: int) -> dict[str, str]:
        """The lines of /proc/THREAD/status, by name; none where there is no such thread. The kernel escapes names."""
        lines = contents(f"/proc/{thread}/status").decode("utf-8", "replace").split("\n")
        return {name: value.strip() for name, colon, value in (line.partition(":") for line in lines) if colon}

    def flags_of(self, thread: int) -> int:
        """The flags of a thread, as linux/sched.h has them: the ninth field of /proc/THREAD/stat."""
        fields = stat_of(thread)
        return int(fields[6]) if len(fields) > 6 else 0

    def name_of(self, process: int) -> bytes:
        """The name of a process: bytes of its own choice."""
        return contents(f"/proc/{process}/comm").removesuffix(b"\n")

    def groups_of(self, process: int) -> dict[str, bytes]:
        """The control groups of a process, by the controllers of their hierarchies."""
        data = contents(f"/proc/{process}/cgroup")
        paths = self.groups.setdefault(data, {})
        for line in data.split(b"\n") if not paths else ():
            controllers, _, path = line.partition(b":")[2].partition(b":")
            if path:
                paths.update((name, path) for name in controllers.decode("utf-8", "replace").split(","))
        return paths

    def mounted_groups(self, process: int) -> list[bytes]:
        """The roots of the control group mounts that a process sees."""
        return [root for _, root, _ in _group_mounts(process)]

    def group_folder(self, hierarchy: str, path: bytes) -> tuple[bytes, bytes] | None:
        """Where a control group of a hierarchy is mounted here: the mount's folder, and the path below."""
        for hierarchies, root, place in _group_mounts("self"):
            if hierarchy.encode() in hierarchies and (path + b"/").startswith(root.rstrip(b"/") + b"/"):
                return place, path[len(root.rstrip(b"/")):]
        return None

    def group_owner(self, hierarchy: str, path: bytes) -> int | None:
        """The first user beside root who owns a control group of a hierarchy, or one above it; None if root owns all,
        or the hierarchy isn't mounted here."""
        place, below = self.group_folder(hierarchy, path) or (b"", b"")
        for part in below.strip(b"/").split(b"/") if place else ():
            place = place + b"/" + part
            user = unless_refused(None, lambda: os.stat(place).st_uid)
            if user != 0:
                return user
        return None

    def is_root_the_first(self) -> bool:
        """Whether the control group `/` is the root of its hierarchy, and not that of a cgroup namespace alone."""
        try:
            return os.stat("/proc/self/ns/cgroup").st_ino == PROC_CGROUP_INIT_INO
        except OSError as error:
            # a kernel without such namespaces
            return error.errno == errno.ENOENT

    def makers_of_namespaces(self, process: int) -> list[int]:
        """The users who made the user namespace of a process and those around it that this tool may see, the innermost
        first; the initial namespace isn't among them."""
        users: list[int] = []
        with contextlib.suppress(OSError):
            for file in _namespace_files(process, "user"):
                if os.fstat(file).st_ino == PROC_USER_INIT_INO:
                    break
                users.append(int.from_bytes(fcntl.ioctl(file, NS_GET_OWNER_UID, bytes(4)), "little"))
        return users

    def owner_of(self, process: int, user: int) -> int:
        """The user who answers for a process: its own one, or if it is in another user namespace than the initial one
        the user who made that, or made the outermost of several."""
        return [user, *self.makers_of_namespaces(process)][-1]

    def namespaces_of(self, process: int) -> list[tuple[int, int]]:
        """The PID namespace of a process and those around it that this tool may see, the innermost first."""
        return [(status.st_dev, status.st_ino) for status in map(os.fstat, _namespace_files(process, "pid"))]
