"""Region files r.X.Z.mca of any compression, and the files c.X.Z.mcc beside them: read chunk by chunk, and written.

What can't be read is told by the exceptions of chunk_data.py. Files are written under other names first.
"""
import collections
import contextlib
import errno
import io
import os
import re
import secrets
import stat
import struct
import typing

from chunk_data import SECTOR, Refused, Unread, plain_bytes

HEADER = 2 * SECTOR
EXTERNAL, MOST_SECTORS = 128, 255
NO_CHUNKS = [0] * 1024
NUMBERS = r"\.(0|-?[1-9][0-9]*)\.(0|-?[1-9][0-9]*)\."
REGION_NAME, EXTERNAL_NAME = re.compile("r" + NUMBERS + "mca"), re.compile("c" + NUMBERS + "mcc")

# ---------------------------------------------------------------- names


def opened(path):
    """A file that is open for reading. What is no file, such as a pipe, is not waited for."""
    file = open(path, "rb", opener=lambda path, flags: os.open(path, flags | os.O_NONBLOCK))
    if not stat.S_ISREG(os.fstat(file.fileno()).st_mode):
        file.close()
        raise OSError(errno.EINVAL, "Not a file", path)
    return file


class Place(typing.NamedTuple):
    """Where a region is. They are in order by z and then by x."""
    z: int
    x: int

    @property
    def name(self):
        return "r.%d.%d.mca" % (self.x, self.z)

    def chunk(self, index):
        return 32 * self.x + index % 32, 32 * self.z + index // 32

    def external(self, index):
        return "c.%d.%d.mcc" % self.chunk(index)


def externals(folder):
    """The names of the files c.X.Z.mcc of a folder, by region."""
    found = collections.defaultdict(set)
    for name in filter(None, map(EXTERNAL_NAME.fullmatch, os.listdir(folder))):
        found[Place(int(name[2]) >> 5, int(name[1]) >> 5)].add(name[0])
    return found


def places(folder):
    """The regions of a folder. Their numbers have 32 bits."""
    names = filter(None, map(REGION_NAME.fullmatch, os.listdir(folder)))
    found = {Place(int(name[2]), int(name[1])) for name in names}
    return {place for place in found if all(-1 << 31 <= number < 1 << 31 for number in place)}


class Stored(typing.NamedTuple):
    """A chunk as a file has it: its bytes without padding, in parts. What its file c.X.Z.mcc has are bytes, or those of the file of
    this name beside the region that it comes from."""
    parts: tuple
    external: typing.Union[None, bytes, str] = None
    kept: bool = False


class Region:
    """A region file that is open. Threads may read chunks of it side by side."""

    def __init__(self, folder, place, file):
        self.folder, self.place, self.file = folder, place, file
        self.size = os.fstat(file.fileno()).st_size
        self.empty = self.size == 0
        header = self.read(HEADER, 0)
        if 0 < len(header) < HEADER:
            raise Refused("its %d bytes are less than a header" % len(header))
        header = header or bytes(HEADER)
        self.locations, self.stamps = struct.unpack_from(">1024I", header), header[SECTOR:]

    def read(self, count, offset):
        return os.pread(self.file.fileno(), count, offset)

    def sectors(self, index):
        """Where a chunk's sectors begin, how many bytes they have, and these bytes as far as the file has them."""
        location = self.locations[index]
        offset, count = SECTOR * (location >> 8), SECTOR * (location & 255)
        return offset, count, self.read(count, offset)

    def record(self, index):
        """A chunk's compression and data, which are judged in the order in which the program does it."""
        offset, count, sectors = self.sectors(index)
        if offset < HEADER or count == 0:
            raise Unread("its location %08x is in the header or of no sectors" % self.locations[index])
        if offset + 4 > self.size:
            raise Unread("it begins behind the file's end")
        length = int.from_bytes(sectors[:4], "big")
        if offset + 4 + length > self.size:
            raise Unread("its %d bytes pass the file's end" % length)
        if length == 0 or 4 + length > count:
            raise Unread("its %d bytes are none or more than its sectors hold" % length)
        return sectors[4], sectors[5:4 + length]

    def plain(self, index, kind, data):
        """The plain bytes of a chunk with this record."""
        if kind < EXTERNAL:
            return plain_bytes(kind, io.BytesIO(data))
        name = self.place.external(index)
        try:
            with opened(os.path.join(self.folder, name)) as file:
                return plain_bytes(kind - EXTERNAL, file)
        except OSError as error:
            raise Unread("%s: %s" % (name, error.strerror)) from error

    def kept(self, index):
        """A chunk as it is stored: its record, or all its sectors where it has none that is right."""
        offset, count, sectors = self.sectors(index)
        length = 4 + int.from_bytes(sectors[:4], "big")
        if count == MOST_SECTORS * SECTOR < length and offset + length <= self.size:
            raise Refused("chunk %d %d can't be brought back, it has more than 255 sectors" % self.place.chunk(index))
        if not 4 < length <= len(sectors):
            length = count
        if offset < HEADER or count == 0 or len(sectors) < length:
            raise Refused("chunk %d %d can't be brought back, its sectors are not in the file" % self.place.chunk(index))
        return Stored((sectors[:length],), self.place.external(index) if sectors[4] >= EXTERNAL else None, True)


# ---------------------------------------------------------------- writing


def make_alike(descriptor, model):
    """Gives an open file the owner and the mode of another, and answers whether the owner could be given."""
    own, given = os.fstat(descriptor), True
    if (own.st_uid, own.st_gid) != (model.st_uid, model.st_gid):
        try:
            os.fchown(descriptor, model.st_uid, model.st_gid)
        except OSError as why:
            if why.errno not in (errno.EPERM, errno.EINVAL):
                raise
            given = False
            # A group of one's own can be given all the same, by which who runs the game may write.
            with contextlib.suppress(OSError):
                os.fchown(descriptor, -1, model.st_gid)
    os.fchmod(descriptor, stat.S_IMODE(model.st_mode))
    return given


ACCESS = "system.posix_acl_access"


def give_attributes(descriptor, model):
    """Gives an open file the extended attributes of the file at a path, which are also who may use it (ACL), as far as they can be given."""
    with contextlib.suppress(OSError):
        names = os.listxattr(model)
        # One that came from the folder in which the file was made.
        if ACCESS in os.listxattr(descriptor) and ACCESS not in names:
            os.removexattr(descriptor, ACCESS)
        for name in names:
            with contextlib.suppress(OSError):
                os.setxattr(descriptor, name, os.getxattr(model, name))


class Fresh:
    """Files that are written to a folder under names of their own, and take their places together. One that takes another's place has
    its owner, where that may be given, and its mode."""

    def __init__(self, folder):
        self.folder, self.parts, self.ready = folder, [], []

    def __enter__(self):
        return self

    def __exit__(self, *_):
        for part in self.parts:
            with contextlib.suppress(OSError):
                os.unlink(part)

    @contextlib.contextmanager
    def file(self, name):
        part = os.path.join(self.folder, ".worlds-%s.part" % secrets.token_hex(8))
        descriptor = os.open(part, os.O_WRONLY | os.O_CREAT | os.O_EXCL | os.O_NOFOLLOW, 0o666)
        self.parts.append(part)
        with os.fdopen(descriptor, "wb") as file:
            yield file
            file.flush()
            with contextlib.suppress(FileNotFoundError):
                make_alike(descriptor, os.stat(os.path.join(self.folder, name)))
            os.fsync(descriptor)
        self.ready.append((part, name))

    def place(self):
        """Renames them in the order in which they were ready, and none where a folder is in the place of one."""
        paths = [os.path.join(self.folder, name) for _, name in self.ready]
        if any(os.path.isdir(path) and not os.path.islink(path) for path in paths):
            raise IsADirectoryError(errno.EISDIR, os.strerror(errno.EISDIR))
        for (part, _), path in zip(self.ready, paths):
            os.replace(part, path)
        folder = os.open(self.folder, os.O_RDONLY)
        os.fsync(folder)
        os.close(folder)


class Writer:
    """Writes chunks to a region file, one behind the other."""

    def __init__(self, file):
        self.file, self.locations, self.next = file, [*NO_CHUNKS], HEADER // SECTOR
        file.seek(HEADER)

    def add(self, index, parts):
        size = sum(map(len, parts))
        sectors = -(-size // SECTOR)
        self.file.writelines([*parts, bytes(sectors * SECTOR - size)])
        self.locations[index] = self.next << 8 | sectors
        self.next += sectors

    def finish(self, stamps):
        self.file.seek(0)
        self.file.write(struct.pack(">1024I", *self.locations) + stamps)
