"""Compares calls of files and pipes with those of the Linux that it runs on: tools/compare --linux COUNT SEED

One process of one user makes pseudo-random calls, in the model and in a new folder of this machine. Of each call the result
or the error has to be the same. Calls to which an entry of `LEFT_OUT` applies are made in neither; of results, `UNLIKE` says
what is not compared. As root it goes on as another user, so that Linux judges permissions.
"""

import errno
import os
import stat
import tempfile
from collections import Counter, namedtuple

from model import APPEND, CREAT, DIRECTORY, EXCL, FILE, MAY_WRITE, PIPE, READ, TRUNC, WRITE
from model import BadWord, Failed, Refused, components_of, is_component, read_line, words_of
from scripts import TOPICS, Chooser

# What a call is about: its first word, what it asks for, the paths' components, and what its connection has open, if any.
Asked = namedtuple("Asked", "word request old new block inode user")

# An entry of the table: to which calls it applies, and why these are not compared.
Entry = namedtuple("Entry", "name applies reason")


def is_root(parts):
    return parts in (["ann"], ["ann", "pipe"])


def is_directory(inode):
    return inode is not None and inode.kind == DIRECTORY


def is_above(parts, others):
    return parts is not None and others is not None and others[: len(parts)] == parts


def found_at(asked, parts):
    """The inode that a path leads to, None where it leads to nothing."""
    try:
        mount, rest = asked.user.place_of("/" + "/".join(parts), {"ann"})
        return asked.user.walk(mount.root, rest)[1]
    except (Failed, Refused):
        return None


def kind_at(asked, parts):
    inode = found_at(asked, parts)
    return inode.kind if inode else None


def walks(asked, parts):
    """Whether the walk along a path comes to its last component."""
    try:
        mount, rest = asked.user.place_of("/" + "/".join(parts), {"ann"})
        asked.user.walk(mount.root, rest)
        return True
    except (Failed, Refused):
        return False


def is_renaming_by_order(asked):
    """Whether more than one error applies to a rename, of which Linux judges another one first."""
    if asked.word != "rename":
        return False
    if not walks(asked, asked.new) and found_at(asked, asked.old) is None:
        return True
    return is_above(asked.old, asked.new) or is_above(asked.new, asked.old)


def moves_closed_directory(asked):
    if asked.word != "rename" or asked.old[:-1] == asked.new[:-1]:
        return False
    inode = found_at(asked, asked.old)
    return is_directory(inode) and not inode.mode & MAY_WRITE


def fills_pipe(asked):
    data = getattr(asked.request, "data", None)
    return asked.inode is not None and asked.inode.kind == PIPE and bool(data) and len(asked.inode.data) + len(data) > 4_096


def opens(asked, kind, flags):
    return asked.word == "open" and kind_at(asked, asked.old) == kind and asked.request.flags & flags == flags


def truncates_for_reading(asked):
    return asked.word == "open" and asked.request.flags & TRUNC and not asked.request.flags & WRITE


LEFT_OUT = [
    Entry(
        "the form of a path",
        lambda asked: asked.old is None or asked.new is None,
        "A path begins with a slash and a user's name here, its components have at most 64 bytes, and `.` and `..` are none.",
    ),
    Entry(
        "a root",
        lambda asked: asked.word in ("unlink", "mkdir", "rename") and (is_root(asked.old) or is_root(asked.new)),
        "The root of a mount can't be removed or renamed here, which is EBUSY. The folder that stands for it on Linux can.",
    ),
    Entry(
        "the mode of a root",
        lambda asked: asked.word == "chmod" and asked.inode is not None and asked.inode.number == 1,
        "The mode of the top's root is fixed here: who took reading from it could never give it back.",
    ),
    Entry(
        "what a pipe mount has no function for",
        lambda asked: asked.word in ("mkdir", "rename") and "pipe" in (asked.old[1:2] + asked.new[1:2]),
        "A pipe mount has pipes and no directories, and can't rename: ENOSYS. A rename from one mount to another is EXDEV.",
    ),
    Entry(
        "reading with TRUNC",
        truncates_for_reading,
        "TRUNC without WRITE has no effect here. POSIX leaves it open, and Linux empties the file.",
    ),
    Entry(
        "CREAT of a directory that is there",
        lambda asked: opens(asked, DIRECTORY, CREAT) and not asked.request.flags & EXCL,
        "Here CREAT has no effect on what is there, so a directory is opened for reading. On Linux it is EISDIR.",
    ),
    Entry(
        "the order of the errors of a rename",
        is_renaming_by_order,
        "Here the old path is judged wholly, then the new one, then permission, and only then that one lies in the other or both "
        "are the same. Linux walks to both directories first, and finds a path in another one before it asks for permission.",
    ),
    Entry(
        "a directory that may not be written, to another directory",
        moves_closed_directory,
        "Of the mode of what is moved nothing is asked here. Linux would change the entry `..` in it, and asks for that.",
    ),
    Entry(
        "a seek in a directory",
        lambda asked: asked.word == "seek" and is_directory(asked.inode),
        "A directory has no offset here: EINVAL. Names are listed behind a name. On Linux it has one.",
    ),
    Entry(
        "the greatest offsets and files",
        lambda asked: asked.word == "seek" and abs(asked.request.by) > 60_000
        or asked.word == "write" and asked.block is not None and max(asked.block.offset, len(asked.inode.data)) > 60_000,
        "A file has at most 65,536 bytes here, and an offset at most 2^63 - 1. On Linux both depend on the file system.",
    ),
    Entry(
        "a full pipe",
        fills_pipe,
        "A pipe holds 4,096 bytes here. On Linux it holds 65,536 unless it is set otherwise, and counts them by pages.",
    ),
    Entry(
        "the ranges of a message",
        lambda asked: asked.word == "open" and not asked.request.flags & (READ | WRITE)
        or asked.word == "read" and asked.request.count > 4_096
        or asked.word == "write" and len(asked.request.data) > 4_096
        or asked.word == "list" and not is_component(asked.request.after or "a"),
        "A message has at most 4,096 bytes here, an open asks to read or to write, and names are listed behind a name. On Linux "
        "no flag means to read.",
    ),
    Entry(
        "a directory that was removed",
        lambda asked: asked.word == "list" and is_directory(asked.inode) and not asked.inode.links,
        "A directory that lost its name has no names here. On Linux to list it is ENOENT.",
    ),
]

UNLIKE = {
    "the number of a connection": "The lowest free one in both. But this program has files of its own open on Linux.",
    "slashes at the end of a path": "They say nothing here. On Linux they ask for a directory, and are left out.",
    "an open of a pipe": "It does not wait for the other side here. On Linux it would, so that side is open there meanwhile.",
    "the making of a pipe": "An open makes and opens it here, whatever its mode. On Linux mkfifo() makes it.",
    "unlink of a directory": "It takes empty directories here. On Linux rmdir() does.",
    "numbers of inodes, owners and times": "An owner is a user's number here, and a time is the moment of a perform.",
    "the size of a directory and of a pipe": "0 and the number of its bytes here. On Linux the file system's own, and 0.",
    "the links of a directory": "1 while it has a name. On Linux each directory in it, and its own entry `.`, count too.",
    "the order of names": "The order of their bytes here. On Linux any.",
}


class Caller:
    """Makes calls on this machine, under a folder. `files` has its file by the number of our connection."""

    def __init__(self, folder):
        self.places = {"files": os.path.join(folder, "files"), "pipes": os.path.join(folder, "pipes")}
        for place in self.places.values():
            os.mkdir(place, 0o700)
        self.files = {}

    def path(self, parts):
        if parts[1:2] == ["pipe"]:
            return "/".join([self.places["pipes"], *parts[2:]])
        return "/".join([self.places["files"], *parts[1:]])

    def call(self, asked, coid):
        """The result of a call, or the error; a new connection gets that number."""
        try:
            return getattr(self, asked.word)(asked, coid)
        except OSError as error:
            return f"error {errno.errorcode[error.errno]}"

    def file(self, asked):
        if asked.request.coid not in self.files:
            raise OSError(errno.EBADF, "")
        return self.files[asked.request.coid]

    def open(self, asked, coid):
        wanted, path = asked.request.flags, self.path(asked.old)
        flags = {READ: os.O_RDONLY, WRITE: os.O_WRONLY, READ | WRITE: os.O_RDWR}[wanted & (READ | WRITE)]
        for flag, other in [(TRUNC, os.O_TRUNC), (APPEND, os.O_APPEND), (CREAT, os.O_CREAT), (EXCL, os.O_EXCL)]:
            flags |= other if wanted & flag else 0
        in_pipes = asked.old[1:2] == ["pipe"] and len(asked.old) == 3
        file = self.open_pipe(path, flags, asked.request.mode) if in_pipes else os.open(path, flags, asked.request.mode)
        self.files[coid] = file
        return "opened"

    def open_pipe(self, path, flags, mode):
        """Makes the pipe where it is missing, and opens it while the other side is open."""
        if not os.path.lexists(path) and flags & os.O_CREAT:
            os.mkfifo(path, 0o600)
            file = self.open_beside(path, flags & ~os.O_EXCL)
            os.fchmod(file, mode)
            return file
        return self.open_beside(path, flags)

    def open_beside(self, path, flags):
        """Opens a pipe while both sides are open, whatever its mode."""
        mode = stat.S_IMODE(os.stat(path).st_mode)
        os.chmod(path, 0o600)
        other = os.open(path, os.O_RDWR | os.O_NONBLOCK)
        os.chmod(path, mode)
        try:
            return os.open(path, flags | os.O_NONBLOCK)
        finally:
            os.close(other)

    def stat(self, asked, coid):
        return shown_stat(os.stat(self.path(asked.old)))

    def unlink(self, asked, coid):
        path = self.path(asked.old)
        if kind_at(asked, asked.old) == DIRECTORY:
            os.rmdir(path)
        else:
            os.unlink(path)
        return "done"

    def mkdir(self, asked, coid):
        os.mkdir(self.path(asked.old), asked.request.mode)
        return "done"

    def rename(self, asked, coid):
        os.rename(self.path(asked.old), self.path(asked.new))
        return "done"

    def read(self, asked, coid):
        return f"read {os.read(self.file(asked), asked.request.count).hex()}"

    def write(self, asked, coid):
        return f"wrote {os.write(self.file(asked), asked.request.data)}"

    def close(self, asked, coid):
        os.close(self.file(asked))
        del self.files[asked.request.coid]
        return "done"

    def dup(self, asked, coid):
        self.files[coid] = os.dup(self.file(asked))
        return "opened"

    def seek(self, asked, coid):
        whence = {"set": os.SEEK_SET, "cur": os.SEEK_CUR, "end": os.SEEK_END}[asked.request.whence]
        return f"at {os.lseek(self.file(asked), asked.request.by, whence)}"

    def fstat(self, asked, coid):
        return shown_stat(os.fstat(self.file(asked)))

    def list(self, asked, coid):
        names = sorted(os.listdir(self.file(asked)))
        return f"names {[name for name in names if name > asked.request.after]}"

    def chmod(self, asked, coid):
        os.fchmod(self.file(asked), asked.request.mode)
        return "done"

    def end(self):
        for file in self.files.values():
            os.close(file)


def shown_stat(status):
    """What is compared of a status."""
    kind = {stat.S_IFREG: FILE, stat.S_IFDIR: DIRECTORY, stat.S_IFIFO: PIPE}[stat.S_IFMT(status.st_mode)]
    more = {FILE: f" links {status.st_nlink} size {status.st_size}", PIPE: f" links {status.st_nlink}"}.get(kind, "")
    return f"kind {kind} mode {stat.S_IMODE(status.st_mode):03o}{more}"


def shown_reply(word, answer):
    """Our answer in the same words."""
    told, status, *data = answer.split()
    if told == "error":
        return answer
    data = b"" if not data or data[0] == "-" else bytes.fromhex(data[0])
    if word in ("stat", "fstat"):
        places = (4, 6), (6, 8), (8, 12), (16, 24)
        kind, mode, links, size = [int.from_bytes(data[start:end], "little") for start, end in places]
        more = {FILE: f" links {links} size {size}", PIPE: f" links {links}"}.get(kind, "")
        return f"kind {kind} mode {mode:03o}{more}"
    if word == "list":
        return f"names {[name.decode('latin-1') for name in data.split(bytes(1))[:-1]]}"
    words = {"open": "opened", "dup": "opened", "read": f"read {data.hex()}", "write": f"wrote {status}", "seek": f"at {status}"}
    return words.get(word, "done")


# How often each kind of call comes. Raw messages and notifications have none like them on Linux.
NOT_OF_LINUX = ("raw", "notify", "notify64")
FILE_CALLS = {
    topic: {word: often for word, often in calls.items() if word not in NOT_OF_LINUX} for topic, calls in TOPICS.items()
}


class LinuxChooser(Chooser):
    """Chooses calls of files and pipes by one process of one thread, which never waits."""

    def configure(self):
        self.topic = self.dice.choice(["all", "files", "pipes"])
        self.lines = ["user ann"]

    def begin(self):
        self.add("spawn ann 1 10")
        self.add("mount ann.1.1 /ann/pipe pipe")

    def mode(self):
        return self.dice.choice(["700", "700", "600", "500", "300"])

    def chosen_call(self):
        """A call's line: all that is opened in the pipe mount is opened so that nobody waits."""
        process = self.world.users["ann"].processes[1]
        while True:
            word = self.weighted(FILE_CALLS[self.topic])
            words = f"{word} ann.1.1 {getattr(self, f'call_{word}')(process)}".split(" ")
            if word == "open" and "pipe" in words[2] and "n" not in words[3]:
                words[3] += "n"
            if word == "open" and len(process.connections) > 20:
                continue
            return " ".join(words)


def asked_by(line, world):
    """What a call's line asks for, None where the line is bad."""
    step = line.said
    request, user = step.values[1], world.users["ann"]
    word = step.text.split()[0]
    connection = user.processes[1].connections.get(getattr(request, "coid", None))
    block = user.blocks.get(connection.block) if connection else None
    inode = user.inodes[block.inode] if block else None
    old, new = parts_of(request, "path"), parts_of(request, "to_path")
    return Asked(word, request, old, new, block, inode, user)


def parts_of(request, field):
    """The components of a path of a request under the user's own name: none where it has no such path, None where it is odd."""
    if field not in vars(request):
        return []
    try:
        parts = components_of(getattr(request, field))
    except Refused:
        return None
    return parts if parts[:1] == ["ann"] else None


def play(seed, steps, folder):
    """Makes the calls of a seed in both, and returns how often entries applied, what was compared, and a first difference."""
    chooser, caller, counts = LinuxChooser(seed, steps), Caller(folder), Counter()
    chooser.begin()
    made = 0
    for _ in range(steps):
        text = chooser.chosen_call()
        try:
            line = read_line(words_of(text), ["ann"])
        except BadWord:
            continue
        asked = asked_by(line, chooser.world)
        entry = next((entry.name for entry in LEFT_OUT if entry.applies(asked)), None)
        if entry is not None:
            counts[entry] += 1
            continue
        made += 1
        ours, theirs = both(chooser, caller, asked, line)
        counts["compared", asked.word, ours.split()[1] if ours.startswith("error") else "done"] += 1
        if ours != theirs:
            caller.end()
            return counts, [f"seed {seed}, call {made}: {text[:150]}", f"  here      {ours[:150]}", f"  on Linux  {theirs[:150]}"]
    caller.end()
    return counts, []


def both(chooser, caller, asked, line):
    """A call's answer here and on Linux. Linux is asked first, as a call is told by what is there before it."""
    process = asked.user.processes[1]
    coid = min(set(range(3, 99)) - set(process.connections))
    theirs = caller.call(asked, coid)
    outcome = chooser.world.take(line.said)
    if outcome != "sent":
        return f"error {outcome.split()[1]}", theirs
    chooser.player.serve(1)
    thread = process.threads[1]
    answer = thread.answer
    chooser.world.take_reply(("ann", 1, 1))
    return shown_reply(asked.word, answer), theirs


def compare(count, seed, steps):
    """Compares the calls of so many seeds, and returns how many scripts have a difference."""
    counts, differ = Counter(), 0
    with tempfile.TemporaryDirectory() as folder:
        if os.geteuid() == 0:
            os.chown(folder, 65_534, 65_534)
            os.setegid(65_534)
            os.seteuid(65_534)
        os.umask(0)
        for number in range(seed, seed + count):
            place = os.path.join(folder, str(number))
            os.mkdir(place, 0o700)
            found, report = play(number, steps, place)
            counts.update(found)
            if report:
                differ += 1
                print("\n".join(report))
        if os.getuid() == 0:
            os.seteuid(0)
    for entry in LEFT_OUT:
        print(f"left out {counts[entry.name]:6} times: {entry.name}. {entry.reason}")
    for name, reason in UNLIKE.items():
        print(f"not compared: {name}. {reason}")
    compared = {key[1:]: times for key, times in counts.items() if isinstance(key, tuple)}
    for word in sorted({word for word, _ in compared}):
        told = ", ".join(f"{outcome} {times}" for (own, outcome), times in sorted(compared.items()) if own == word)
        print(f"compared: {word}: {told}")
    print(f"{sum(compared.values())} calls of {count} scripts, {differ} scripts differ")
    return differ
