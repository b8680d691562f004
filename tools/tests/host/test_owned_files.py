"""scfhost.owned_files: who could have changed a file, and that no link of a user leads elsewhere."""
import ctypes
import os
import signal
import struct
import subprocess
import sys
import unittest

from support.common import Case
from scftools.base import child
from scfhost import owned_files
from scfhost.owned_files import ANYONE, Absent, UnreadableFile

USER = 12345


@unittest.skipIf(os.getuid(), "only root gives files away")
class Files(Case):
    def setUp(self):
        super().setUp()
        os.chmod(self.folder, 0o755)
        self.path = self.file("a/b/c", "text")
        self.files = set(os.listdir("/proc/self/fd"))
        self.addCleanup(lambda: self.assertEqual(set(os.listdir("/proc/self/fd")), self.files))

    def give(self, *names, user=USER):
        for name in names:
            os.chown(os.path.join(self.folder, name), user, user, follow_symlinks=False)

    def writer(self, name="a/b/c"):
        return owned_files.writer_of(os.path.join(self.folder, name))

    def refused(self, name, says):
        said = self.text_of_error(UnreadableFile, owned_files.read_own, os.path.join(self.folder, name), 100)
        self.assertIn(says, said)

    def test_owners(self):
        """Of the file and of each folder that leads to it, the first one."""
        self.assertIsNone(self.writer())
        for given, expected in ((["a/b/c"], USER), (["a/b"], USER), (["a", "a/b", "a/b/c"], USER)):
            self.give(*given)
            self.assertEqual(self.writer(), expected, given)
            self.refused("a/b/c", f"may be changed by user {USER}")
            self.give(*given, user=0)
        self.assertEqual(owned_files.read_own(self.path, 4), b"text")

    def test_others_may_write(self):
        """By the mode of a folder or of the file; in a sticky folder nobody may change what is another's."""
        for name, mode, expected in (("a", 0o777, ANYONE), ("a", 0o1777, None), ("a/b/c", 0o666, ANYONE),
                                     ("a/b/c", 0o1666, ANYONE), ("a", 0o775, None)):
            os.chmod(os.path.join(self.folder, name), mode)
            self.assertEqual(self.writer(), expected, (name, oct(mode)))
            os.chmod(os.path.join(self.folder, name), 0o755)
        os.chown(os.path.join(self.folder, "a"), 0, USER)
        os.chmod(os.path.join(self.folder, "a"), 0o775)
        self.assertEqual(self.writer(), ANYONE)

    def test_access_lists(self):
        """A user whom an access list lets write, as a mask among the bits of the group tells (acl(5))."""
        # linux/posix_acl_xattr.h: the version, and for each entry its kind, what it permits, and a user or group
        entries = [(1, 7, -1), (2, 7, USER), (4, 5, -1), (16, 7, -1), (32, 5, -1)]
        access_list = struct.pack("<I", 2) + b"".join(struct.pack("<HHi", *entry) for entry in entries)
        for name in ("a", "a/b/c"):
            path = os.path.join(self.folder, name)
            try:
                os.setxattr(path, "system.posix_acl_access", access_list)
            except OSError:
                self.skipTest("no access lists here")
            self.assertEqual(self.writer(), ANYONE, name)
            os.removexattr(path, "system.posix_acl_access")
            self.assertIsNone(self.writer(), name)

    def test_links(self):
        """Root's are followed, as /var/run is, but not to where a user may change something; a user's never are."""
        for name, target in (("link", "a"), ("a/up", "../a/b"), ("all", f"{self.folder}/a/b"), ("a/b/last", "c")):
            os.symlink(target, os.path.join(self.folder, name))
        for name in ("link/b/c", "a/up/c", "all/c", "link/up/c", "a/b/last", "a/../a/b/./c", "a//b/c"):
            self.assertIsNone(self.writer(name), name)
        self.give("link", "all")
        for name in ("link/b/c", "all/c"):
            self.assertEqual(self.writer(name), USER)
        self.give("a")
        self.assertEqual((self.writer("a/up/c"), self.writer("a/../a/b/c")), (USER, USER))
        os.symlink(f"{self.folder}/a", os.path.join(self.folder, "roots"))
        self.assertEqual(self.writer("roots/b/c"), USER)
        os.symlink("loop", os.path.join(self.folder, "loop"))
        self.refused("loop/x", "through too many")

    def test_what_is_no_file(self):
        os.mkfifo(os.path.join(self.folder, "pipe"))
        self.refused("pipe", "isn't a regular file")
        self.refused("a", "isn't a regular file")
        self.refused("a/b/c/d", "can't be read: Not a directory")
        self.refused("a\0b", "can't be read: embedded null byte")
        for path in ("none", "a/none"):
            with self.assertRaises(Absent):
                owned_files.read_own(os.path.join(self.folder, path), 100)
        self.assertRaises(UnreadableFile, owned_files.read_own, "a/b/c", 100)

    def test_file_systems_of_users(self):
        """They aren't asked, whatever a user calls a place, a source and a kind; who leaves them sees what is below."""
        library = ctypes.CDLL(None, use_errno=True)
        for name, source, kind in (("plain", "x", "fuse"), ("a\rb", "x", "fuse"), ("c", "x\ry", "fuse"),
                                   ("d\x0b e", "\x0c - x", "fuse.a\rb")):
            where = os.path.join(self.folder, name)
            self.file(f"{name}/below", "")
            device = os.open("/dev/fuse", os.O_RDWR | os.O_CLOEXEC)
            settings = f"fd={device},rootmode=40000,user_id={USER},group_id={USER},allow_other"
            try:
                if library.mount(source.encode(), where.encode(), kind.encode(), 0, settings.encode()):
                    self.skipTest("no file system in user space can be mounted here")
                self.assertEqual(owned_files.users_mounts()[where], USER)
                self.assertEqual(self.writer(f"{name}/x"), USER)
                names = []
                child.ask_each([lambda send, *_, at=where: (owned_files.leave_users_mounts(), send(os.listdir(at)))],
                               [(0, 600)], lambda _, value: names.append(value))
                self.assertEqual(names, [["below"]])
            finally:
                # (whoever waits for an answer gets an error)
                os.close(device)
                library.umount2(where.encode(), owned_files.MNT_DETACH)

    def test_sizes(self):
        self.assertEqual(owned_files.read_file(self.path, 4), b"text")
        self.assertRaises(UnreadableFile, owned_files.read_file, self.path, 3)

    def test_leases(self):
        """A file that its owner holds a lease on (fcntl(2)) isn't waited for, which takes 45 seconds by default."""
        script = ("import fcntl, sys, time\nfile = open(sys.argv[1])\n"
                  "fcntl.fcntl(file, fcntl.F_SETLEASE, fcntl.F_WRLCK)\nprint(1, flush=True)\ntime.sleep(900)")
        with subprocess.Popen([sys.executable, "-c", script, self.path], stdout=subprocess.PIPE) as holder:
            # (the signal that tells of the reader is SIGIO, and ends it)
            self.assertEqual(holder.stdout.readline(), b"1\n")
            os.kill(holder.pid, signal.SIGSTOP)
            self.refused("a/b/c", "can't be read: Resource temporarily unavailable")
            holder.kill()

    def test_names(self):
        for name in "xyz":
            self.file(f"a/b/{name}", "")
        where = os.path.join(self.folder, "a/b")
        self.assertEqual(owned_files.names_in(where, 4), (["c", "x", "y", "z"], True))
        names, is_all = owned_files.names_in(where, 2)
        self.assertEqual((len(names), is_all), (2, False))
        self.assertEqual(owned_files.names_in(os.path.join(self.folder, "none"), 2), ([], True))
        with self.assertRaises(UnreadableFile):
            owned_files.names_in(os.path.join(self.folder, "a/b/c"), 2)
