"""Framed lists: read strictly, unpacked into a folder, and written. Python's standard library alone.

docs/PROTOCOL.md says the format. A list says no modes: a file that begins as a program does (ELF, or `#!`)
may be run.
"""
import os

DIRECTORY, FILE, LINK, END = b"D", b"F", b"L", b"E"
RANKS = {DIRECTORY: 0, FILE: 1, LINK: 2}
MOST_RECORDS = 200_000
MOST_PATH_BYTES = 4096
MOST_NAME_BYTES = 255
PIECE_BYTES = 1 << 20


class Refused(Exception):
    """Why a list, or what asks for it, is refused: a name, and a text for people."""

    def __init__(self, name, text):
        super().__init__("%s: %s" % (name, text))
        self.name = name


def shown(path):
    return repr(os.fsdecode(path))


def parts_of(path):
    """The names of a path that stays in its folder."""
    if path.startswith(b"/") or not path or len(path) > MOST_PATH_BYTES:
        raise Refused("PathLeaves", "%s is no path below the folder" % shown(path[:80]))
    parts = path.split(b"/")
    for part in parts:
        if part in (b"", b".", b"..") or len(part) > MOST_NAME_BYTES or b"\0" in part:
            raise Refused("PathLeaves", "%s is no plain path below the folder" % shown(path))
    return parts


class Records:
    """The records of a list in a file that is open for reading, each by its place in the list."""

    def __init__(self, stream, size):
        self.stream, self.left = stream, size

    def take(self, n):
        if n > self.left:
            raise Refused("BadList", "the bytes end too early")
        self.left -= n
        raw = self.stream.read(n)
        if len(raw) != n:
            raise Refused("BadList", "the bytes end too early")
        return raw

    def number(self, size):
        return int.from_bytes(self.take(size), "big")

    def path(self):
        size = self.number(4)
        if size > MOST_PATH_BYTES:
            raise Refused("PathLeaves", "a path of %d bytes" % size)
        return self.take(size)

    def __iter__(self):
        """Letter, path, and the target of a link or the number of bytes of a file, which stand next in the
        stream."""
        before = None
        for _ in range(MOST_RECORDS + 1):
            letter = self.take(1)
            if letter == END:
                if self.left:
                    raise Refused("BadList", "%d bytes behind the end" % self.left)
                return
            if letter not in RANKS:
                raise Refused("NoRecord", "%s is no directory, file or link" % shown(letter))
            path = self.path()
            place = (RANKS[letter], path)
            if before is not None and place <= before:
                raise Refused("BadList", "%s stands out of order" % shown(path))
            before = place
            yield letter, path, self.behind(letter)
        raise Refused("TooMany", "more than %d records" % MOST_RECORDS)

    def behind(self, letter):
        if letter == LINK:
            return self.path()
        if letter == FILE:
            size = self.number(8)
            if size > self.left:
                raise Refused("BadList", "the bytes end too early")
            return size
        return None

    def copy(self, size, out):
        """Copies what stands next, and gives its first bytes."""
        front = b""
        while size:
            piece = self.take(min(size, PIECE_BYTES))
            front = front or piece[:4]
            out.write(piece)
            size -= len(piece)
        return front


def is_program(front):
    return front.startswith(b"\x7fELF") or front.startswith(b"#!")


class Unpacking:
    """A list that is unpacked into a folder, which no one else writes. Links come last, so nothing is
    written through one."""

    def __init__(self, folder, most):
        self.folder, self.most = os.fsencode(folder), most
        self.directories, self.others, self.links = {b""}, set(), []

    def place(self, path):
        """Where a path stands, its directories made."""
        parts = parts_of(path)
        for n in range(1, len(parts)):
            self.make_directory(b"/".join(parts[:n]))
        if path in self.directories or path in self.others:
            raise Refused("BadList", "%s stands twice" % shown(path))
        self.count()
        return os.path.join(self.folder, path)

    def count(self):
        """One more; also folders that no record names are counted."""
        self.most -= 1
        if self.most < 0:
            raise Refused("TooMany", "more files and folders than are allowed")

    def make_directory(self, path):
        if path in self.others:
            raise Refused("BadList", "%s is no directory" % shown(path))
        if path not in self.directories:
            self.count()
            os.mkdir(os.path.join(self.folder, path), 0o755)
            self.directories.add(path)

    def add_file(self, records, path, size):
        place = self.place(path)
        self.others.add(path)
        with open(place, "xb") as out:
            front = records.copy(size, out)
            os.fchmod(out.fileno(), 0o755 if is_program(front) else 0o644)

    def add_link(self, path, target):
        """A link to a place in the folder, whatever the folder's own place is."""
        if not target.startswith(b"/"):
            raise Refused("LinkLeaves", "%s leads to %s" % (shown(path), shown(target)))
        try:
            parts_of(target[1:])
        except Refused as fault:
            raise Refused("LinkLeaves", "%s leads to %s" % (shown(path), shown(target))) from fault
        place = self.place(path)
        self.others.add(path)
        os.symlink(b"../" * path.count(b"/") + target[1:], place)

    def unpack(self, stream, size):
        records = Records(stream, size)
        for letter, path, more in records:
            if letter == DIRECTORY:
                parts = parts_of(path)
                for n in range(1, len(parts) + 1):
                    self.make_directory(b"/".join(parts[:n]))
            elif letter == FILE:
                self.add_file(records, path, more)
            else:
                self.add_link(path, more)


def unpack(stream, size, folder, most=MOST_RECORDS):
    """Unpacks so many bytes of a stream into a folder that stands empty: at most so many files and
    folders."""
    Unpacking(folder, most).unpack(stream, size)


def written(directories=(), files=(), links=()):
    """The bytes of a list: paths, pairs of a path and a content, pairs of a path and a target."""
    def framed(path):
        raw = os.fsencode(path)
        return len(raw).to_bytes(4, "big") + raw

    parts = [DIRECTORY + framed(path) for path in sorted(map(os.fsencode, directories))]
    parts += [FILE + framed(path) + len(content).to_bytes(8, "big") + content
              for path, content in sorted((os.fsencode(path), content) for path, content in files)]
    parts += [LINK + framed(path) + framed(target)
              for path, target in sorted((os.fsencode(path), target) for path, target in links)]
    return b"".join(parts) + END
