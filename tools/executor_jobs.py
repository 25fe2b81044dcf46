"""What tools/executor does beside its connections: the archives that it unpacked, and the jobs that it runs.

Python's standard library alone, on Linux.
"""
import contextlib
import ctypes
import hashlib
import os
import pathlib
import resource
import secrets
import select
import selectors
import signal
import socket
import stat
import subprocess
import threading
import time

import framed_list
from framed_list import Refused

PROGRAM_FOLDERS = ("usr/local/bin", "usr/bin", "bin")
HOST_PATH = "/usr/local/bin:/usr/bin:/bin"
MARK = "EXECUTOR_JOB"
PIECE_BYTES = 1 << 16
LOOK_SECONDS = 0.25
MIB = 1 << 20
PR_SET_CHILD_SUBREAPER = 36
# The shell sets the limits before the command begins: no core, a file's blocks of 512 bytes, seconds of a
# processor, memory in KiB. What it puts into the environment by itself goes.
LAUNCH = 'ulimit -c 0; ulimit -f "$1"; ulimit -t "$2"; ulimit -v "$3"; shift 3; unset PWD OLDPWD SHLVL _; exec "$@"'


def remove(path):
    """Removes a folder, also one whose modes forbid it, or which is deeper than a path may be long: each
    folder in it is moved up to stand beside it first."""
    left = [os.fspath(path)]
    beside = os.path.dirname(left[0])
    while left:
        folder = left.pop()
        try:
            os.chmod(folder, 0o700)
            with os.scandir(folder) as entries:
                for entry in entries:
                    if entry.is_dir(follow_symlinks=False):
                        os.chmod(entry.path, 0o700)
                        left.append(os.path.join(beside, "gone-" + secrets.token_hex(8)))
                        os.rename(entry.path, left[-1])
                    else:
                        os.unlink(entry.path)
            os.rmdir(folder)
        except FileNotFoundError:
            continue


# Archives

class Archive:
    def __init__(self, root, size):
        self.root, self.size, self.users, self.used = root, size, 0, time.monotonic()


class Archives:
    """The archives by their id. What was used least recently goes first, once there are too many bytes."""

    def __init__(self, folder, most_bytes):
        self.folder, self.most_bytes = pathlib.Path(folder), most_bytes
        self.lock, self.known, self.coming = threading.Lock(), {}, {}

    def has(self, archive_id):
        with self.lock:
            return archive_id in self.known

    @contextlib.contextmanager
    def used(self, archive_id):
        """The root of an archive, which stays while it is used; none where it is not known."""
        with self.lock:
            archive = self.known.get(archive_id)
            if archive is not None:
                archive.users += 1
                archive.used = time.monotonic()
        try:
            yield archive and archive.root
        finally:
            if archive is not None:
                with self.lock:
                    archive.users -= 1

    def add(self, archive_id, path, digest, size):
        """Unpacks a file as the archive of an id, once: whoever comes meanwhile waits for it."""
        if digest != archive_id:
            raise Refused("BadDigest", "the archive's SHA-256 is %s" % digest)
        with self.lock:
            turn = self.coming.setdefault(archive_id, threading.Lock())
        with turn:
            if self.has(archive_id):
                return
            root, part = self.folder / archive_id, self.folder / ("part-" + secrets.token_hex(8))
            try:
                part.mkdir(0o700)
                with open(path, "rb") as stream:
                    framed_list.unpack(stream, size, part)
                os.rename(part, root)
            except OSError as fault:
                raise Refused("NotUnpacked", fault.strerror or str(fault)) from fault
            finally:
                remove(part)
            with self.lock:
                self.known[archive_id] = Archive(root, size)
                self.coming.pop(archive_id, None)
            self.make_room(archive_id)

    def make_room(self, new):
        """Removes what was used least recently, and is not used now, while there are too many bytes."""
        while True:
            with self.lock:
                free = [(a.used, key) for key, a in self.known.items() if not a.users and key != new]
                if sum(a.size for a in self.known.values()) <= self.most_bytes or not free:
                    return
                gone = self.known.pop(min(free)[1])
                aside = gone.root.with_name("gone-" + secrets.token_hex(8))
                os.rename(gone.root, aside)
            remove(aside)


# Processes

def children():
    """The processes whose parent is this one."""
    found = set()
    for task in pathlib.Path("/proc/self/task").iterdir():
        with contextlib.suppress(OSError):
            found.update(map(int, (task / "children").read_text().split()))
    return found


def mark_of(pid):
    """The job that a process was started for, by its environment."""
    try:
        environ = pathlib.Path("/proc/%d/environ" % pid).read_bytes()
    except OSError:
        return None
    head = MARK.encode() + b"="
    return next((entry[len(head):].decode("latin-1") for entry in environ.split(b"\0") if entry.startswith(head)), None)


class Processes:
    """The jobs that run, each in a process group of its own. What a job started and left is ended with it."""

    def __init__(self):
        self.lock, self.leaders, self.marks = threading.Lock(), {}, set()
        self.reaps = ctypes.CDLL(None, use_errno=True).prctl(PR_SET_CHILD_SUBREAPER, 1, 0, 0, 0) == 0

    def start(self, words, mark, **more):
        with self.lock:
            process = subprocess.Popen(words, stdin=subprocess.DEVNULL, stdout=subprocess.PIPE, stderr=subprocess.PIPE,
                                       start_new_session=True, close_fds=True, **more)
            self.leaders[process.pid] = process
            self.marks.add(mark)
        return process

    def end(self, process, mark):
        """Kills a job's process group, and whatever it left that has no other parent than this process."""
        if process.returncode is None:
            with contextlib.suppress(ProcessLookupError):
                os.killpg(process.pid, signal.SIGKILL)
            process.wait()
        with self.lock:
            self.leaders.pop(process.pid, None)
            self.marks.discard(mark)
            while self.reaps and self.sweep():
                time.sleep(0.002)

    def sweep(self):
        """Kills and takes up those that were left by jobs which are over; whether there was one."""
        lost = [pid for pid in children() - set(self.leaders) if mark_of(pid) not in self.marks]
        for pid in lost:
            with contextlib.suppress(ProcessLookupError):
                os.kill(pid, signal.SIGKILL)
            with contextlib.suppress(ChildProcessError):
                os.waitpid(pid, 0)
        return bool(lost)


# Jobs

class Limits:
    """What a job may take."""

    def __init__(self, seconds, output_bytes, disk_bytes, files, memory_bytes):
        self.seconds, self.output_bytes, self.disk_bytes = seconds, output_bytes, disk_bytes
        self.files, self.memory_bytes = files, memory_bytes
        # A second more of the processor, so that the clock's limit comes first.
        kinds = [(resource.RLIMIT_FSIZE, disk_bytes, 512), (resource.RLIMIT_CPU, (seconds + 1) * os.cpu_count(), 1),
                 (resource.RLIMIT_AS, memory_bytes, 1024)]
        self.shell = [str(within(kind, most) // unit) for kind, most, unit in kinds]


def within(kind, most):
    """A limit that this process may set."""
    hard = resource.getrlimit(kind)[1]
    return most if hard == resource.RLIM_INFINITY else min(most, hard)


class Run:
    """What is asked of a job: the message of docs/PROTOCOL.md, read."""

    def __init__(self, executable, arguments, env_vars, cwd, outputs):
        self.executable, self.arguments, self.env_vars = executable, arguments, env_vars
        self.cwd, self.outputs = cwd, outputs


def program_in(root, name):
    """The program of an archive: by its path there, or by its name in the folders for programs."""
    paths = [name.lstrip("/")] if name.startswith("/") else [folder + "/" + name for folder in PROGRAM_FOLDERS]
    if "/" in name and not name.startswith("/"):
        paths = []
    top = os.path.realpath(root)
    for path in paths:
        if path and ".." not in path.split("/"):
            place = os.path.join(top, path)
            real = os.path.realpath(place)
            if real.startswith(top + "/") and os.path.isfile(real) and os.access(real, os.X_OK):
                return place
    raise Refused("NoProgram", "the archive has no program %r" % name)


def used_by(folder):
    """The bytes and the number of what stands in a folder, and the bytes of its largest file."""
    total, number, largest, folders = 0, 0, 0, [folder]
    while folders:
        try:
            with os.scandir(folders.pop()) as entries:
                for entry in entries:
                    number += 1
                    if entry.is_dir(follow_symlinks=False):
                        folders.append(entry.path)
                    else:
                        size = entry.stat(follow_symlinks=False).st_size
                        total, largest = total + size, max(largest, size)
        except (FileNotFoundError, NotADirectoryError):
            continue
        except OSError as fault:
            raise Refused("FileLimit", "a folder that cannot be read: %s" % fault.strerror) from fault
    return total, number, largest


class Job:
    """One job in a fresh folder, which is removed behind it."""

    def __init__(self, folder, limits, processes):
        self.mark = secrets.token_hex(16)
        self.folder = pathlib.Path(folder) / self.mark
        self.work, self.temporary = self.folder / "work", self.folder / "tmp"
        self.limits, self.processes = limits, processes
        self.written, self.bytes = {}, 0

    def __enter__(self):
        try:
            for folder in (self.folder, self.work, self.temporary):
                folder.mkdir(0o700)
        except OSError as fault:
            remove(self.folder)
            raise Refused("NoFolder", fault.strerror or str(fault)) from fault
        return self

    def __exit__(self, *_):
        remove(self.folder)

    def unpack(self, stream, size):
        """The inputs; none where there are no bytes."""
        if size:
            try:
                framed_list.unpack(stream, size, self.work, self.limits.files)
            except OSError as fault:
                raise Refused("NotUnpacked", fault.strerror or str(fault)) from fault

    def place(self, path):
        """A folder of the job, made where it is missing: `/` is the job's own."""
        path = path.strip("/")
        if not path:
            return self.work
        at = self.work
        for part in framed_list.parts_of(os.fsencode(path)):
            at = at / os.fsdecode(part)
            if not os.path.lexists(at):
                at.mkdir(0o755)
            if at.is_symlink() or not at.is_dir():
                raise Refused("PathLeaves", "%r is no folder of the job" % path)
        return at

    def environment(self, root, pairs):
        given = dict(pairs)
        for name, value in given.items():
            if not name or "=" in name or "\0" in name + value:
                raise Refused("BadVariable", "%r is no variable" % name)
        given["PATH"] = ":".join([os.path.join(root, folder) for folder in PROGRAM_FOLDERS] + [HOST_PATH])
        given["TMPDIR"] = os.fspath(self.temporary)
        given[MARK] = self.mark
        return given

    def run(self, root, run, client):
        """Runs the command, and gives its code, what it wrote, and the outputs that it made."""
        words = [program_in(root, run.executable)] + run.arguments
        if any("\0" in word for word in words):
            raise Refused("BadArgument", "an argument has a zero byte")
        cwd = self.place(run.cwd)
        for name in run.outputs:
            framed_list.parts_of(os.fsencode(name))
        environment = self.environment(root, run.env_vars)
        launch = ["/bin/sh", "-c", LAUNCH, "sh"] + self.limits.shell + words
        try:
            process = self.processes.start(launch, self.mark, cwd=cwd, env=environment)
        except (OSError, ValueError) as fault:
            raise Refused("NotStarted", str(fault)) from fault
        try:
            code = self.watch(process, client)
        finally:
            self.processes.end(process, self.mark)
            process.stdout.close()
            process.stderr.close()
        self.look()
        written = [bytes(self.written.get(name, b"")) for name in ("out", "err")]
        return code, written[0], written[1], self.outputs(cwd, run.outputs)

    def watch(self, process, client):
        """Takes what the command writes, until it ends; its code, that of a shell where a signal ended it."""
        until = time.monotonic() + self.limits.seconds
        over = os.pidfd_open(process.pid)
        try:
            with selectors.DefaultSelector() as selector:
                selector.register(over, selectors.EVENT_READ, "over")
                selector.register(process.stdout, selectors.EVENT_READ, "out")
                selector.register(process.stderr, selectors.EVENT_READ, "err")
                selector.register(client, selectors.EVENT_READ, "client")
                self.wait(selector, client, until)
                with contextlib.suppress(ProcessLookupError):
                    os.killpg(process.pid, signal.SIGKILL)
                code = process.wait()
                self.drain(selector, until)
        finally:
            os.close(over)
        return code if code >= 0 else 128 - code

    def wait(self, selector, client, until):
        """Until the command itself is over."""
        looked = time.monotonic()
        while True:
            ready = {key.data: key for key, _ in selector.select(LOOK_SECONDS)}
            for name in ("out", "err"):
                if name in ready:
                    self.take(selector, ready[name])
            if "client" in ready and gone(client):
                raise Refused("ClientGone", "the client went away")
            if "over" in ready:
                return
            now = time.monotonic()
            if now >= until:
                raise Refused("TimeLimit", "the command ran for %d seconds" % self.limits.seconds)
            if now - looked >= LOOK_SECONDS:
                self.look()
                looked = time.monotonic()

    def drain(self, selector, until):
        """What was written before the end; a process that left the group has a second to close what it
        holds."""
        until = min(until, time.monotonic() + 1)
        while any(key.data in ("out", "err") for key in selector.get_map().values()) and time.monotonic() < until:
            for key, _ in selector.select(0.05):
                if key.data in ("out", "err"):
                    self.take(selector, key)
                else:
                    selector.unregister(key.fileobj)

    def take(self, selector, key):
        piece = os.read(key.fd, PIECE_BYTES)
        if not piece:
            selector.unregister(key.fileobj)
            return
        self.count(len(piece))
        self.written.setdefault(key.data, bytearray()).extend(piece)

    def count(self, size):
        self.bytes += size
        if self.bytes > self.limits.output_bytes:
            raise Refused("OutputLimit", "more than %d bytes of output" % self.limits.output_bytes)

    def look(self):
        """Whether what stands in the job's folder is within the limits."""
        total, number, largest = used_by(self.folder)
        if total > self.limits.disk_bytes or largest >= self.limits.disk_bytes // 512 * 512:
            raise Refused("DiskLimit", "more than %d bytes of files" % self.limits.disk_bytes)
        if number > self.limits.files:
            raise Refused("FileLimit", "more than %d files" % self.limits.files)

    def outputs(self, cwd, names):
        """The outputs of these names, those that were not made left out."""
        made = []
        for name in names:
            content = self.output(cwd, name)
            if content is not None:
                made.append((name, content))
        return made

    def output(self, cwd, name):
        """A file below a folder, reached through no link."""
        *above, last = framed_list.parts_of(os.fsencode(name))
        at = os.open(cwd, os.O_DIRECTORY | os.O_NOFOLLOW | os.O_CLOEXEC)
        try:
            for part in above:
                below = os.open(part, os.O_DIRECTORY | os.O_NOFOLLOW | os.O_CLOEXEC, dir_fd=at)
                os.close(at)
                at = below
            return self.content(at, last, name)
        except FileNotFoundError:
            return None
        except OSError as fault:
            raise Refused("OutputLeaves", "%r is no file of the job's folder" % name) from fault
        finally:
            os.close(at)

    def content(self, at, last, name):
        with open(os.open(last, os.O_RDONLY | os.O_NOFOLLOW | os.O_NONBLOCK | os.O_CLOEXEC, dir_fd=at), "rb") as file:
            if not stat.S_ISREG(os.fstat(file.fileno()).st_mode):
                raise Refused("OutputLeaves", "%r is no plain file" % name)
            self.count(os.fstat(file.fileno()).st_size)
            return file.read(self.limits.output_bytes + 1)


def gone(client):
    """Whether the client closed its connection. What it sends behind its request is not read on."""
    try:
        return not client.recv(PIECE_BYTES, socket.MSG_DONTWAIT)
    except BlockingIOError:
        return False
    except OSError:
        return True


def readable(link, seconds):
    return bool(select.select([link], [], [], max(0.0, seconds))[0])


def spooled(link, front, size, path, move_seconds, limit):
    """A body of so many bytes, which begins with a front, into a file; its SHA-256. Nobody trusts that it
    comes."""
    digest = hashlib.sha256(front)
    with open(path, "xb") as out:
        out.write(front)
        left = size - len(front)
        while left:
            if not readable(link, move_seconds):
                raise Refused("BodyLate", "no byte came for %d seconds, of %d bytes %d are missing"
                              % (move_seconds, size, left))
            piece = link.recv(min(left, PIECE_BYTES * 4))
            if not piece:
                raise Refused("BodyCut", "of %d bytes %d are missing" % (size, left))
            if time.monotonic() > limit:
                raise Refused("BodyLate", "the body took too long")
            digest.update(piece)
            out.write(piece)
            left -= len(piece)
    return digest.hexdigest()
