#!/usr/bin/env python3
"""Checks a trace by the rules of docs/MACHINE.md, without any code of the program: tools/model.py < TRACE

Standard input has the `user`, `ceiling`, `disconnect`, `limit` and `workers` lines of the run's script and then what its `trace`
printed, from step 1 on. Each step is taken here, and its outcome compared. The first that differs is reported, with its number, both
outcomes and the rows that decide. The last line counts. The status is 0 where all agree, 1 at a difference, and 2 where the
input is no trace.

    tools/model.py --run < SCRIPT

plays a script (docs/SCRIPT.md), and prints what `qnxsh` prints, with the same exit status.

As a module: `Player` plays a script, `World` has the rows and takes single steps. Bytes of scripts, paths and names are
Latin-1 text throughout, one character for each byte.
"""

import re
import sys
from collections import namedtuple
from dataclasses import dataclass, field
from types import SimpleNamespace

# ---- limits and flags

# What a user may hold, each number from 1 to this (docs/MACHINE.md, 'Limits').
LIMITS = {
    "processes": 16,
    "connections": 64,
    "servers": 64,
    "blocks": 256,
    "inodes": 1_024,
    "file": 65_536,
    "bytes": 1_048_576,
    "mounts": 8,
    "events": 128,
}
CEILING = 63
DISCONNECT = 255
FIRST_CONNECTION, LAST_CONNECTION = 3, 66
MOST_PATH, MOST_COMPONENT = 1_024, 64
MOST_BODY, HEADER = 4_160, 8
MOST_BYTES = 4_096
MOST_OFFSET = 2**63 - 1

FLAG_LETTERS = "rwcxtan"
READ, WRITE, CREAT, EXCL, TRUNC, APPEND, NONBLOCK = (1 << place for place in range(7))
INPUT, OUTPUT = 1, 2
FILE, DIRECTORY, PIPE, DEVICE = 1, 2, 3, 4
KIND_WORDS = {FILE: "file", DIRECTORY: "directory", PIPE: "pipe", DEVICE: "device"}
MAY_READ, MAY_WRITE, MAY_SEARCH = 0o400, 0o200, 0o100


class Refused(Exception):
    """A step is refused at once, with the error of that name."""


class Failed(Exception):
    """A message is answered the error of that name."""


class WrongState(Exception):
    """There is no such user, process, thread or worker, or it is not in the state that the step needs."""


def reply(status, data=b""):
    """An answer, as it is printed."""
    return f"reply {status} {bytes(data).hex() or '-'}"


def lowest_free(taken, first):
    number = first
    while number in taken:
        number += 1
    return number


# ---- devices

# A call is answered with a status and bytes, and these bytes stand afterwards.
Gives = namedtuple("Gives", "status data state")


class Pipe:
    """What a read and a write come to by the bytes that stand: None where they wait."""

    @staticmethod
    def read(count, state):
        return Gives(min(count, len(state)), state[:count], state[count:]) if state else None

    @staticmethod
    def write(data, state):
        return Gives(len(data), b"", state + data) if len(state) + len(data) <= MOST_BYTES else None


class Latch:
    """A write sets it, and a read waits until it is set."""

    @staticmethod
    def read(count, state):
        return Gives(min(count, len(state)), state[:count], state) if state else None

    @staticmethod
    def write(data, state):
        return Gives(len(data), b"", data)

    @staticmethod
    def has_input(state):
        return bool(state)

    @staticmethod
    def has_output(state):
        return True


class Mailbox:
    """It has room for one message: a write waits while one is there, and a read takes it."""

    @staticmethod
    def read(count, state):
        return Gives(min(count, len(state)), state[:count], b"") if state else None

    @staticmethod
    def write(data, state):
        if not data:
            raise Failed("EINVAL")
        return None if state else Gives(len(data), b"", data)

    @staticmethod
    def has_input(state):
        return bool(state)

    @staticmethod
    def has_output(state):
        return not state


class Pump:
    """A syringe pump. Its five bytes: the rate and what is left, two bytes each, low byte first, and what it does."""

    STOPPED, RUNNING, ALARM = 0, 1, 2

    @classmethod
    def numbers(cls, state):
        """The rate, what is left, and what it does."""
        if len(state) != 5:
            return 0, 0, cls.STOPPED
        doing = state[4] if state[4] in (cls.RUNNING, cls.ALARM) else cls.STOPPED
        return state[0] + 256 * state[1], state[2] + 256 * state[3], doing

    @staticmethod
    def state_of(rate, left, doing):
        return rate.to_bytes(2, "little") + left.to_bytes(2, "little") + bytes([doing])

    @classmethod
    def read(cls, count, state):
        return Gives(min(count, 5), cls.state_of(*cls.numbers(state))[:count], state)

    @classmethod
    def write(cls, data, state):
        return Gives(len(data), b"", cls.state_of(*cls.commanded(data, *cls.numbers(state))))

    @classmethod
    def commanded(cls, data, rate, left, doing):
        """The pump's numbers after a command."""
        number = data[1] + 256 * data[2] if len(data) == 3 else 0
        if len(data) == 3 and data[0] == 1 and number:
            return number, left, doing
        if len(data) == 3 and data[0] == 2 and number:
            return rate, number, cls.only_if(doing != cls.RUNNING, doing)
        if data == b"\x00":
            return cls.ticked(rate, left) if doing == cls.RUNNING else (rate, left, doing)
        if data == b"\x03":
            return rate, left, cls.only_if(doing == cls.STOPPED and rate and left, cls.RUNNING)
        if data == b"\x04":
            return rate, left, cls.STOPPED if doing == cls.RUNNING else doing
        if data == b"\x05":
            return rate, left, cls.only_if(doing == cls.ALARM, cls.STOPPED)
        raise Failed("EINVAL")

    @classmethod
    def ticked(cls, rate, left):
        return (rate, 0, cls.ALARM) if left <= rate else (rate, left - rate, cls.RUNNING)

    @staticmethod
    def only_if(may, doing):
        if not may:
            raise Failed("EBUSY")
        return doing

    @classmethod
    def has_input(cls, state):
        return cls.numbers(state)[2] == cls.ALARM

    @staticmethod
    def has_output(state):
        return True


# The devices by their words, in the order of their managers. A further device is one class and one entry here.
DEVICES = {"latch": Latch, "mailbox": Mailbox, "pump": Pump}
RAM, PIPES = 0, 1
MANAGERS = ["ram", "pipe", *DEVICES]


# ---- rows


@dataclass(eq=False)
class Sent:
    """What a thread sent: the message, the manager, the root of the mount that a path led to, and the way it goes over.

    `over` is `new`, `existing` or `side`; `coid` is the connection's number, but of a side connection, which has none.
    """

    message: SimpleNamespace
    manager: int
    root: int | None
    over: str
    coid: int | None
    priority: int
    is_asked: bool = False


@dataclass(eq=False)
class Thread:
    """`state` is ready, queued (SEND-blocked), taken or waiting (REPLY-blocked), or answered; `answer` is as printed."""

    process: "Process"
    number: int
    priority: int
    state: str = "ready"
    calls: int = 0
    sent: Sent | None = None
    side: int | None = None
    answer: str | None = None
    answered_in: int = 0

    @property
    def name(self):
        return f"{self.process.name}.{self.number}"


@dataclass(eq=False)
class Connection:
    manager: int
    block: int | None = None


@dataclass(eq=False)
class Process:
    """`servers` has for each manager the server connections by number: True the one in use, False those that were left."""

    user: "User"
    number: int
    threads: dict = field(default_factory=dict)
    connections: dict = field(default_factory=dict)
    servers: list = field(default_factory=lambda: [{} for _ in MANAGERS])
    pulses: list = field(default_factory=list)
    has_ended: bool = False

    @property
    def name(self):
        return f"{self.user.name}.{self.number}"

    def server_in_use(self, manager):
        return next((number for number, used in self.servers[manager].items() if used), None)

    def is_attached(self, manager):
        over = any(connection.manager == manager for connection in self.connections.values())
        return over or any(thread.side == manager for thread in self.threads.values())


@dataclass(eq=False)
class Item:
    """What stands in a line or in a worker's hand. `kind` is message, unblock or disconnect."""

    kind: str
    process: Process
    manager: int
    priority: int
    thread: Thread | None = None
    call: int | None = None
    server: int | None = None

    def __str__(self):
        return f"{self.thread.name if self.thread else self.process.name} {self.kind}"


@dataclass(eq=False)
class Block:
    """An open control block. Its client is a process by one of its server connections."""

    inode: int
    flags: int
    process: Process
    manager: int
    server: int
    offset: int = 0
    uses: int = 1


@dataclass(eq=False)
class Call:
    """A read or a write that waits in a pipe or at a device: `count` of a read, `data` of a write."""

    thread: Thread
    number: int
    block: int
    count: int | None = None
    data: bytes | None = None


@dataclass(eq=False)
class Inode:
    """An attribute and what it is of: a directory's names, or the bytes, and the calls that wait there, oldest first."""

    number: int
    kind: int
    mode: int
    mtime: int
    ctime: int
    links: int = 1
    device: str | None = None
    names: dict = field(default_factory=dict)
    data: bytearray = field(default_factory=bytearray)
    readers: list = field(default_factory=list)
    writers: list = field(default_factory=list)

    def touch(self, moment):
        self.mtime = self.ctime = moment


@dataclass(eq=False)
class Event:
    process: Process
    block: int
    conditions: int
    code: int
    value: int
    first_bit: int


Mount = namedtuple("Mount", "prefix manager root")


# ---- messages (docs/FORMATS.md)


def message(kind, **fields):
    return SimpleNamespace(kind=kind, **fields)


class Malformed(Exception):
    """The body is not the fields of its message."""


class Body:
    """Reads the fields of a body, one after the other."""

    def __init__(self, data):
        self.data = data

    def number(self, size, low, high):
        value = int.from_bytes(self.taken(size), "little")
        if not low <= value <= high:
            raise Malformed
        return value

    def taken(self, size):
        if len(self.data) < size:
            raise Malformed
        first, self.data = self.data[:size], self.data[size:]
        return first

    def rest(self, size=None):
        """The components of a rest, which is all that is left or so many bytes."""
        text = self.taken(len(self.data) if size is None else size).decode("latin-1")
        parts = text.split("/") if text else []
        if len(text) > MOST_PATH or not all(is_component(part) for part in parts):
            raise Malformed
        return parts

    def name(self):
        text = self.taken(len(self.data)).decode("latin-1")
        if text and not is_component(text):
            raise Malformed
        return text

    def bytes(self):
        if len(self.data) > MOST_BYTES:
            raise Malformed
        return self.taken(len(self.data))


def is_component(text):
    return 1 <= len(text) <= MOST_COMPONENT and text not in (".", "..") and "\0" not in text and "/" not in text


def open_fields(body):
    flags = body.number(2, 1, 127)
    if not flags & (READ | WRITE):
        raise Malformed
    return message("open", flags=flags, mode=body.number(2, 0, 0o777), rest=body.rest())


def mknod_fields(body):
    body.number(2, DIRECTORY, DIRECTORY)
    return message("mknod", mode=body.number(2, 0, 0o777), rest=body.rest())


def rename_fields(body):
    return message("rename", rest=body.rest(body.number(2, 0, MOST_PATH)), to=body.rest())


def lseek_fields(body, whence):
    return message("lseek", whence=whence, by=int.from_bytes(body.taken(8), "little", signed=True))


def notify_fields(body, action, size, bits):
    conditions, code, value = body.number(1, 1, 3), body.number(1, 0, 127), body.number(size, 0, 2**bits - 1)
    return message("notify", action=action, conditions=conditions, code=code, value=value, first_bit=bits)


WHENCES = ["set", "cur", "end"]
ACTIONS = ["poll", "pollarm", "tranarm"]

# What reads the body, by type and subtype.
TABLE = {
    (256, 1): open_fields,
    (256, 2): lambda body: message("stat", rest=body.rest()),
    (256, 3): lambda body: message("unlink", rest=body.rest()),
    (256, 4): mknod_fields,
    (256, 5): rename_fields,
    (257, 0): lambda body: message("read", count=body.number(4, 0, MOST_BYTES)),
    (258, 0): lambda body: message("write", data=body.bytes()),
    (259, 0): lambda body: message("close"),
    (260, 0): lambda body: message("dup", old=body.number(2, FIRST_CONNECTION, LAST_CONNECTION)),
    **{(261, number): lambda body, word=word: lseek_fields(body, word) for number, word in enumerate(WHENCES)},
    (262, 0): lambda body: message("fstat"),
    (263, 0): lambda body: message("list", after=body.name()),
    (264, 0): lambda body: message("chmod", mode=body.number(2, 0, 0o777)),
    **{(265, number): lambda body, word=word: notify_fields(body, word, 4, 28) for number, word in enumerate(ACTIONS)},
    **{(266, number): lambda body, word=word: notify_fields(body, word, 8, 60) for number, word in enumerate(ACTIONS)},
}


def read_message(data):
    """The message that bytes spell; its kind is `malformed` or `unknown` where they spell none."""
    length = int.from_bytes(data[4:8], "little")
    if len(data) < HEADER or len(data) - HEADER != length or length > MOST_BODY:
        return message("malformed")
    fields = TABLE.get((int.from_bytes(data[:2], "little"), int.from_bytes(data[2:4], "little")))
    if fields is None:
        return message("unknown")
    body = Body(data[HEADER:])
    try:
        found = fields(body)
    except Malformed:
        return message("malformed")
    return message("malformed") if body.data else found


# What a message has to come over. All others come over an existing connection.
WAYS = {"open": "new", "dup": "new", "stat": "side", "unlink": "side", "mknod": "side", "rename": "side"}
NOT_OF_PIPES = ("mknod", "rename")


# ---- paths


def components_of(path):
    """The components of a path, or why its form is refused."""
    if len(path) > MOST_PATH:
        raise Refused("ENAMETOOLONG")
    if not path.startswith("/"):
        raise Refused("EINVAL")
    parts = [part for part in path.split("/") if part]
    for part in parts:
        if not is_component(part):
            raise Refused("ENAMETOOLONG" if len(part) > MOST_COMPONENT else "EINVAL")
    return parts


# ---- what the managers keep for a user


class User:
    """All that is one user's: the processes by number, the mounts, the inodes and the open control blocks by number, the
    armed events in the order of arming. `blocks` keeps the order of making.

    `answers` has the calls that waited and were answered in the step that is taken, each with its answer.
    """

    def __init__(self, name, number, ceiling, disconnect, limits):
        self.name = name
        self.number = number
        self.ceiling = ceiling
        self.disconnect = disconnect
        self.limits = {**LIMITS, **limits}
        self.processes = {}
        self.mounts = [Mount((name,), RAM, 1)]
        self.inodes = {1: Inode(1, DIRECTORY, 0o700, 0, 0)}
        self.blocks = {}
        self.events = []
        self.answers = []

    # -- mounts and numbers

    def place_of(self, path, tops):
        """The mount that a path leads to, and the rest behind it."""
        parts = tuple(components_of(path))
        if not parts or parts[0] != self.name and parts[0] in tops:
            raise Refused("EACCES")
        if parts[0] != self.name:
            raise Refused("ENOENT")
        found = max((mount for mount in self.mounts if parts[: len(mount.prefix)] == mount.prefix), key=lambda it: len(it.prefix))
        return found, list(parts[len(found.prefix) :])

    def mount(self, path, manager):
        prefix = tuple(components_of(path))
        if prefix[:1] != (self.name,):
            raise Refused("EACCES")
        if any(mount.prefix == prefix for mount in self.mounts):
            raise Refused("EEXIST")
        if len(self.mounts) >= self.limits["mounts"] or lowest_free(self.inodes, 1) > self.limits["inodes"]:
            raise Refused("ENOSPC")
        self.mounts.append(Mount(prefix, manager, self.made(DIRECTORY, 0o700, 0).number))

    def servers_at(self, manager):
        return sum(len(process.servers[manager]) for process in self.processes.values())

    def made(self, kind, mode, moment, device=None):
        """A new inode, where one is free."""
        number = lowest_free(self.inodes, 1)
        if number > self.limits["inodes"]:
            raise Failed("ENOSPC")
        self.inodes[number] = Inode(number, kind, mode, moment, moment, device=device)
        return self.inodes[number]

    def block_number(self):
        number = lowest_free(self.blocks, 1)
        if number > self.limits["blocks"]:
            raise Failed("ENFILE")
        return number

    def blocks_of(self, inode, flag=0):
        """How many blocks have an inode open, with that flag."""
        return sum(block.inode == inode.number and block.flags & flag == flag for block in self.blocks.values())

    # -- names

    def walk(self, root, rest):
        """The directory in which the last component is looked up, None of the root, and what has that name, None if nothing."""
        directory, found = None, self.inodes[root]
        for place, name in enumerate(rest):
            directory = found
            if directory.kind != DIRECTORY:
                raise Failed("ENOTDIR")
            if not directory.mode & MAY_SEARCH:
                raise Failed("EACCES")
            found = self.inodes.get(directory.names.get(name))
            if found is None and place < len(rest) - 1:
                raise Failed("ENOENT")
        return directory, found

    def existing(self, root, rest):
        directory, found = self.walk(root, rest)
        if found is None:
            raise Failed("ENOENT")
        return directory, found

    def may_change(self, directory):
        if not directory.mode & MAY_WRITE:
            raise Failed("EACCES")

    def named(self, directory, name, inode, moment):
        directory.names[name] = inode.number
        directory.touch(moment)

    def unnamed(self, directory, name, moment):
        """A name goes, and what it named too, unless a block has it open."""
        inode = self.inodes[directory.names.pop(name)]
        inode.links = 0
        inode.ctime = moment
        directory.touch(moment)
        self.drop_unused(inode)

    def drop_unused(self, inode):
        if inode.links == 0 and not self.blocks_of(inode):
            del self.inodes[inode.number]

    # -- messages to paths

    def open(self, client, sent, moment):
        """Opens what a path leads to, and returns the number of the block."""
        given = sent.message
        directory, inode = self.walk(sent.root, given.rest)
        if inode is None:
            number, inode = self.made_by_open(directory, sent, moment)
        else:
            number = self.opened(inode, given.flags, moment)
        self.blocks[number] = Block(inode.number, given.flags, client, sent.manager, client.server_in_use(sent.manager))
        return number

    def opened(self, inode, flags, moment):
        if flags & CREAT and flags & EXCL:
            raise Failed("EEXIST")
        if inode.kind == DIRECTORY and flags & WRITE:
            raise Failed("EISDIR")
        if flags & READ and not inode.mode & MAY_READ or flags & WRITE and not inode.mode & MAY_WRITE:
            raise Failed("EACCES")
        number = self.block_number()
        if flags & TRUNC and flags & WRITE and inode.kind == FILE:
            inode.data.clear()
            inode.touch(moment)
        return number

    def made_by_open(self, directory, sent, moment):
        given = sent.message
        if not given.flags & CREAT:
            raise Failed("ENOENT")
        self.may_change(directory)
        number = self.block_number()
        kind = {RAM: FILE, PIPES: PIPE}.get(sent.manager, DEVICE)
        inode = self.made(kind, given.mode, moment, MANAGERS[sent.manager] if kind == DEVICE else None)
        self.named(directory, given.rest[-1], inode, moment)
        return number, inode

    def mkdir(self, root, given, moment):
        if not given.rest:
            raise Failed("EEXIST")
        directory, found = self.walk(root, given.rest)
        if found is not None:
            raise Failed("EEXIST")
        self.may_change(directory)
        self.named(directory, given.rest[-1], self.made(DIRECTORY, given.mode, moment), moment)
        return reply(0)

    def unlink(self, root, given, moment):
        if not given.rest:
            raise Failed("EBUSY")
        directory, found = self.existing(root, given.rest)
        self.may_change(directory)
        if found.names:
            raise Failed("ENOTEMPTY")
        self.unnamed(directory, given.rest[-1], moment)
        return reply(0)

    def rename(self, root, given, moment):
        if not given.rest or not given.to:
            raise Failed("EBUSY")
        old, moved = self.existing(root, given.rest)
        new, replaced = self.walk(root, given.to)
        self.may_change(old)
        self.may_change(new)
        if given.rest == given.to:
            return reply(0)
        if moved.kind == DIRECTORY and given.to[: len(given.rest)] == given.rest:
            raise Failed("EINVAL")
        if replaced is not None:
            self.may_give_way(replaced, moved)
            self.unnamed(new, given.to[-1], moment)
        del old.names[given.rest[-1]]
        old.touch(moment)
        self.named(new, given.to[-1], moved, moment)
        return reply(0)

    def may_give_way(self, replaced, moved):
        if moved.kind == DIRECTORY and replaced.kind != DIRECTORY:
            raise Failed("ENOTDIR")
        if moved.kind != DIRECTORY and replaced.kind == DIRECTORY:
            raise Failed("EISDIR")
        if replaced.names:
            raise Failed("ENOTEMPTY")

    def stat(self, inode):
        """The reply with an inode's status."""
        fields = (inode.number, 4), (inode.kind, 2), (inode.mode, 2), (inode.links, 4), (self.number, 4)
        fields += (len(inode.data), 8), (inode.mtime, 8), (inode.ctime, 8)
        return reply(0, b"".join(value.to_bytes(size, "little") for value, size in fields))

    # -- messages to what is open

    def read(self, block, inode, given):
        data = bytes(inode.data[block.offset : block.offset + given.count])
        block.offset += len(data)
        return reply(len(data), data)

    def write(self, block, inode, data, moment):
        if not data:
            return reply(0)
        start = len(inode.data) if block.flags & APPEND else block.offset
        end = start + len(data)
        if end > self.limits["file"]:
            raise Failed("EFBIG")
        size = max(end, len(inode.data))
        others = sum(len(other.data) for other in self.inodes.values() if other.kind == FILE and other is not inode)
        if others + size > self.limits["bytes"]:
            raise Failed("ENOSPC")
        inode.data.extend(bytes(size - len(inode.data)))
        inode.data[start:end] = data
        inode.touch(moment)
        block.offset = end
        return reply(len(data))

    def seek(self, block, inode, given):
        if inode.kind == DIRECTORY:
            raise Failed("EINVAL")
        if inode.kind != FILE:
            raise Failed("ESPIPE")
        offset = {"set": 0, "cur": block.offset, "end": len(inode.data)}[given.whence] + given.by
        if not 0 <= offset <= MOST_OFFSET:
            raise Failed("EINVAL")
        block.offset = offset
        return reply(offset)

    def list(self, inode, after):
        if inode.kind != DIRECTORY:
            raise Failed("ENOTDIR")
        count, listed = 0, b""
        for name in sorted(name for name in inode.names if name > after):
            if len(listed) + len(name) + 1 > MOST_BYTES:
                break
            count += 1
            listed += name.encode("latin-1") + b"\0"
        return reply(count, listed)

    def chmod(self, inode, mode, moment):
        if inode.number == self.mounts[0].root:
            raise Failed("EPERM")
        inode.mode = mode
        inode.ctime = moment
        return reply(0)

    def close(self, number, moment):
        """A connection less has the block, which goes with the last one."""
        self.blocks[number].uses -= 1
        if self.blocks[number].uses == 0:
            self.free_block(number, moment)

    def free_block(self, number, moment):
        inode = self.inodes[self.blocks[number].inode]
        waits = inode.kind in (PIPE, DEVICE)
        if waits:
            self.clean(inode, moment)
            self.dismiss(inode, "readers", "error EBADF", number)
            self.dismiss(inode, "writers", "error EBADF", number)
        self.events = [event for event in self.events if event.block != number]
        del self.blocks[number]
        if waits:
            self.end_sides(inode)
            self.settle(inode, moment)
            if inode.kind == PIPE and not self.blocks_of(inode):
                inode.data.clear()
        self.drop_unused(inode)

    # -- pipes and devices

    def tried(self, inode, call, moment):
        """Answers a call by the bytes that stand, or leaves all as it is and returns None where it waits."""
        rules = DEVICES.get(inode.device, Pipe)
        try:
            if call.data is None:
                verdict = rules.read(call.count, bytes(inode.data))
            else:
                verdict = rules.write(call.data, bytes(inode.data))
            if verdict is not None and len(verdict.state) > MOST_BYTES:
                raise Failed("ENOSPC")
        except Failed as error:
            return f"error {error}"
        if verdict is None:
            return None
        inode.data = bytearray(verdict.state)
        if call.data:
            inode.touch(moment)
        return reply(verdict.status, verdict.data[: call.count or 0])

    def settle(self, inode, moment):
        """Answers the first reader, else the first writer, again until neither can be answered."""
        while True:
            for side in (inode.readers, inode.writers):
                answer = self.tried(inode, side[0], moment) if side else None
                if answer is not None:
                    self.answers.append((side.pop(0), answer))
                    break
            else:
                return

    def clean(self, inode, moment):
        """Calls of ended processes leave."""
        inode.readers = [call for call in inode.readers if not call.thread.process.has_ended]
        inode.writers = [call for call in inode.writers if not call.thread.process.has_ended]
        self.settle(inode, moment)

    def dismiss(self, inode, side, answer, block=None):
        """The calls on a side are answered so, all of them or those over a block."""
        calls = getattr(inode, side)
        leaving = [call for call in calls if block in (None, call.block)]
        setattr(inode, side, [call for call in calls if call not in leaving])
        self.answers += [(call, answer) for call in leaving]

    def end_sides(self, inode):
        if inode.kind == DEVICE:
            return
        if not self.blocks_of(inode, WRITE):
            self.dismiss(inode, "readers", reply(0))
        if not self.blocks_of(inode, READ):
            self.dismiss(inode, "writers", "error EPIPE")

    def call_waiting(self, inode, call, sent, moment):
        """A read or a write of a pipe or a device: its answer, or None where it waits."""
        self.clean(inode, moment)
        answer = self.told(inode, call)
        side = inode.readers if call.data is None else inode.writers
        if answer is None and not side:
            answer = self.tried(inode, call, moment)
            self.settle(inode, moment)
        if answer is None and self.blocks[call.block].flags & NONBLOCK:
            answer = "error EAGAIN"
        if answer is None and sent.is_asked:
            answer = "error EINTR"
        if answer is None:
            side.append(call)
        return answer

    def told(self, inode, call):
        """What a call of a pipe is told whoever waits there: nothing asked for or given, the end of the file, or EPIPE."""
        if inode.kind == DEVICE:
            return None
        if call.data is None:
            is_end = not inode.data and not self.blocks_of(inode, WRITE)
            return reply(0) if call.count == 0 or is_end else None
        if not call.data:
            return reply(0)
        return None if self.blocks_of(inode, READ) else "error EPIPE"

    def unblock(self, thread, number, moment):
        """Answers EINTR to a call that waits, once its pipe is clean."""
        for inode in list(self.inodes.values()):
            if any(call.thread is thread and call.number == number for call in inode.readers + inode.writers):
                self.clean(inode, moment)
                for side in (inode.readers, inode.writers):
                    for call in [it for it in side if it.thread is thread and it.number == number]:
                        side.remove(call)
                        self.answers.append((call, "error EINTR"))
                self.settle(inode, moment)

    # -- notification

    def conditions_of(self, number):
        """The conditions that hold of what a block has open."""
        inode = self.inodes[self.blocks[number].inode]
        if inode.kind in (FILE, DIRECTORY):
            return INPUT | OUTPUT
        if inode.kind == DEVICE:
            rules, state = DEVICES[inode.device], bytes(inode.data)
            return INPUT * bool(rules.has_input(state)) + OUTPUT * bool(rules.has_output(state))
        has_input = inode.data or not self.blocks_of(inode, WRITE)
        has_output = len(inode.data) < MOST_BYTES or not self.blocks_of(inode, READ)
        return INPUT * bool(has_input) + OUTPUT * bool(has_output)

    def notify(self, process, number, given):
        held = self.conditions_of(number) & given.conditions
        others = [event for event in self.events if event.block != number]
        if given.action == "poll" or given.action == "pollarm" and held:
            self.events = others
            return reply(held)
        pulses = sum(len(other.pulses) for other in self.processes.values())
        if len(others) + pulses >= self.limits["events"]:
            raise Failed("EAGAIN")
        self.events = [*others, Event(process, number, given.conditions, given.code, given.value, given.first_bit)]
        return reply(0)

    def conditions(self):
        """Of each armed event, which conditions hold."""
        return {event: self.conditions_of(event.block) for event in self.events}

    def give_pulses(self, before):
        """Events of which a wanted condition came to hold since then give their pulses."""
        for event in list(self.events):
            after = self.conditions_of(event.block)
            if event in before and event.conditions & after & ~before[event]:
                self.events.remove(event)
                if not event.process.has_ended:
                    bits = (event.conditions & after) << event.first_bit
                    event.process.pulses.append((event.code, event.value + bits))


# ---- the world

# A step: the first word of its line, what the other words say, and the line as a trace has it.
Step = namedtuple("Step", "word values text")
# A step that was taken: its number from 1, its outcome as printed, and the user by or for whom it was taken, or None.
Taken = namedtuple("Taken", "number step outcome owner")


class World:
    """The rows of a run, and the ten steps.

    `users` is the users by name, in the order of their numbers; each `User` has `processes` by number, and each `Process`
    `threads` by number, `connections` by number, `pulses` (code and value, oldest first) and `has_ended`. A `Thread` has a
    `state` (ready, queued, taken, waiting, answered), a `priority`, and the `answer` that waits for it as it is printed.
    `lines` is one list of `Item`s for each manager, as `MANAGERS` names them, the first to be received first. `hands` is the
    `Item` that each worker holds, or None, by the worker's number. An `Item` has its `kind` (message, unblock, disconnect),
    `process`, `thread` (None of a disconnect) and `priority`, and is printed as `took` prints it. `history` is all steps that
    were taken, each as `Taken`, whose `owner` is the name of the user by or for whom it was taken, or None.
    """

    def __init__(self, names, workers, ceilings, disconnects, limits):
        self.users = {}
        for number, name in enumerate(names, 1):
            self.users[name] = User(name, number, ceilings.get(name, CEILING), disconnects.get(name, DISCONNECT), limits.get(name, {}))
        self.lines = [[] for _ in MANAGERS]
        self.hands = {number: None for number in range(1, workers + 1)}
        self.history = []

    def take(self, step):
        """Takes a step, and returns its outcome as it is printed."""
        owner = self.owner(step)
        # No other step changes what a condition is of.
        before = self.users[owner].conditions() if owner and step.word == "perform" else {}
        try:
            outcome = getattr(self, f"take_{step.word}")(*step.values)
        except Refused as error:
            outcome = f"refused {error}"
        except WrongState:
            outcome = "wrongstate"
        if owner:
            self.end_step(self.users[owner], before)
        self.history.append(Taken(len(self.history) + 1, step, outcome, owner))
        return outcome

    def owner(self, step):
        """The name of the user by or for whom a step is taken, or None."""
        if step.word == "receive":
            worker, manager = step.values
            may = worker in self.hands and self.hands[worker] is None and self.lines[manager]
            return self.lines[manager][0].process.user.name if may else None
        if step.word == "perform":
            item = self.hands.get(step.values[0])
            return item.process.user.name if item else None
        return user_of(step)

    def end_step(self, user, before):
        user.give_pulses(before)
        for process in [process for process in user.processes.values() if process.has_ended]:
            is_held = any(item is not None and item.process is process for item in self.hands.values())
            if not is_held and not any(process.servers):
                del user.processes[process.number]

    # -- what is there

    def living(self, name):
        """The process of a name that has not ended."""
        user, number = name
        process = self.users[user].processes.get(number)
        if process is None or process.has_ended:
            raise WrongState
        return process

    def thread(self, name, state=None):
        thread = self.living(name[:2]).threads.get(name[2])
        if thread is None or state not in (None, thread.state):
            raise WrongState
        return thread

    def hand(self, worker):
        if worker not in self.hands:
            raise WrongState
        return self.hands[worker]

    # -- lines

    def put(self, item):
        """An item goes behind all of its own or a higher priority."""
        line = self.lines[item.manager]
        place = len(line)
        while place and line[place - 1].priority < item.priority:
            place -= 1
        line.insert(place, item)

    def withdraw(self, thread):
        """What stands of a thread in a line leaves it."""
        for number, line in enumerate(self.lines):
            self.lines[number] = [item for item in line if item.thread is not thread]

    def settle_servers(self, process, manager):
        """A server connection is in use exactly while something is attached; one that is left sends its disconnect pulse."""
        servers = process.servers[manager]
        used = process.server_in_use(manager)
        if process.is_attached(manager):
            if used is None:
                servers[lowest_free(servers, 1)] = True
        elif used is not None:
            servers[used] = False
            self.put(Item("disconnect", process, manager, process.user.disconnect, server=used))

    # -- steps of clients

    def may_give(self, user, priority):
        if priority == 0:
            raise Refused("EINVAL")
        if priority > user.ceiling:
            raise Refused("EPERM")

    def take_spawn(self, name, threads, priority):
        user = self.users[name]
        if not 1 <= threads <= 4:
            raise Refused("EINVAL")
        self.may_give(user, priority)
        number = lowest_free(user.processes, 1)
        if number > user.limits["processes"]:
            raise Refused("EAGAIN")
        process = user.processes[number] = Process(user, number)
        process.threads = {tid: Thread(process, tid, priority) for tid in range(1, threads + 1)}
        return f"spawned {number}"

    def take_exit(self, name):
        process = self.living(name)
        for thread in process.threads.values():
            self.withdraw(thread)
        process.has_ended = True
        process.threads = {}
        process.connections = {}
        process.pulses = []
        for manager in range(len(MANAGERS)):
            self.settle_servers(process, manager)
        return "done"

    def take_reply(self, name):
        thread = self.thread(name, "answered")
        thread.state = "ready"
        return thread.answer

    def take_pulse(self, name):
        process = self.living(name)
        if not process.pulses:
            return "nopulse"
        code, value = process.pulses.pop(0)
        return f"pulse {code} {value}"

    def take_prio(self, name, priority):
        thread = self.thread(name)
        self.may_give(thread.process.user, priority)
        thread.priority = priority
        return "done"

    def take_mount(self, name, path, manager):
        self.thread(name, "ready").process.user.mount(path, manager)
        return "done"

    def take_interrupt(self, name):
        thread = self.thread(name)
        sent = thread.sent
        if thread.state == "queued":
            self.withdraw(thread)
            self.answer(thread, "error EINTR")
        elif thread.state in ("taken", "waiting") and not sent.is_asked:
            sent.is_asked = True
            self.put(Item("unblock", thread.process, sent.manager, sent.priority, thread, thread.calls))
        return "done"

    # -- calls

    def take_call(self, name, request):
        thread = self.thread(name, "ready")
        if not is_in_ranges(request):
            raise Refused("EINVAL")
        sent = self.sent_by_path(thread, request) if "path" in vars(request) else self.sent_over(thread, request)
        process = thread.process
        thread.calls += 1
        thread.state = "queued"
        thread.sent = sent
        if sent.over == "new":
            process.connections[sent.coid] = Connection(sent.manager)
        elif sent.over == "side":
            thread.side = sent.manager
        self.settle_servers(process, sent.manager)
        self.put(Item("message", process, sent.manager, sent.priority, thread, thread.calls))
        return "sent"

    def sent_by_path(self, thread, request):
        """What a request with a path comes to."""
        process, user = thread.process, thread.process.user
        mount, rest = user.place_of(request.path, self.users)
        fields = {key: value for key, value in vars(request).items() if key not in ("path", "to_path")}
        if request.kind == "rename":
            other, fields["to"] = user.place_of(request.to_path, self.users)
            if other is not mount:
                raise Refused("EXDEV")
        way = WAYS[request.kind]
        coid = self.free_connection(process) if way == "new" else None
        if process.server_in_use(mount.manager) is None and user.servers_at(mount.manager) >= user.limits["servers"]:
            raise Refused("EAGAIN")
        fields["rest"] = rest
        return Sent(SimpleNamespace(**fields), mount.manager, mount.root, way, coid, thread.priority)

    def sent_over(self, thread, request):
        """What a request over a connection comes to."""
        process = thread.process
        if request.coid not in process.connections:
            raise Refused("EBADF")
        manager = process.connections[request.coid].manager
        if request.kind == "dup":
            return Sent(message("dup", old=request.coid), manager, None, "new", self.free_connection(process), thread.priority)
        given = read_message(request.data) if request.kind == "raw" else request
        return Sent(given, manager, None, "existing", request.coid, thread.priority)

    def free_connection(self, process):
        number = lowest_free(process.connections, FIRST_CONNECTION)
        if number >= FIRST_CONNECTION + process.user.limits["connections"]:
            raise Refused("EMFILE")
        return number

    def answer(self, thread, answer):
        """A thread is answered; what only its message was attached for goes, and what would unblock it."""
        sent = thread.sent
        thread.state = "answered"
        thread.answer = answer
        thread.answered_in = len(self.history) + 1
        thread.sent = None
        if sent.over == "new" and answer.startswith("error"):
            del thread.process.connections[sent.coid]
        thread.side = None
        self.withdraw(thread)
        self.settle_servers(thread.process, sent.manager)

    # -- steps of workers

    def take_receive(self, worker, manager):
        if self.hand(worker) is not None:
            return "busy"
        if not self.lines[manager]:
            return "idle"
        item = self.hands[worker] = self.lines[manager].pop(0)
        if item.kind == "message":
            item.thread.state = "taken"
        return f"took {item}"

    def take_perform(self, worker, moment):
        item = self.hand(worker)
        if item is None:
            return "nothing"
        self.hands[worker] = None
        user = item.process.user
        user.answers = []
        if item.kind == "disconnect":
            self.serve_disconnect(item, moment)
        elif item.kind == "unblock":
            user.unblock(item.thread, item.call, moment)
        elif not item.process.has_ended:
            self.serve_message(item.thread, moment)
        for call, answer in user.answers:
            self.answer(call.thread, answer)
        return "handled"

    def serve_disconnect(self, item, moment):
        user = item.process.user
        client = (item.process, item.manager, item.server)
        for number, block in list(user.blocks.items()):
            if (block.process, block.manager, block.server) == client:
                user.free_block(number, moment)
        del item.process.servers[item.manager][item.server]

    def serve_message(self, thread, moment):
        try:
            answer = self.served(thread, moment)
        except Failed as error:
            answer = f"error {error}"
        if answer is None:
            thread.state = "waiting"
        else:
            self.answer(thread, answer)

    def served(self, thread, moment):
        """Judges a message and does it: its answer, or None where it waits."""
        sent, process = thread.sent, thread.process
        given, user = sent.message, process.user
        if given.kind == "malformed":
            raise Failed("EINVAL")
        if given.kind == "unknown" or given.kind in NOT_OF_PIPES and sent.manager != RAM:
            raise Failed("ENOSYS")
        if WAYS.get(given.kind, "existing") != sent.over:
            raise Failed("EINVAL")
        if given.kind == "open":
            number = user.open(process, sent, moment)
            process.connections[sent.coid].block = number
            return reply(sent.coid)
        if sent.over == "side":
            return self.served_by_path(user, sent, moment)
        connection = process.connections.get(given.old if given.kind == "dup" else sent.coid)
        if connection is None or connection.manager != sent.manager or connection.block is None:
            raise Failed("EBADF")
        if given.kind == "dup":
            user.blocks[connection.block].uses += 1
            process.connections[sent.coid].block = connection.block
            return reply(sent.coid)
        if given.kind == "close":
            del process.connections[sent.coid]
            user.close(connection.block, moment)
            return reply(0)
        return self.served_by_block(thread, connection.block, moment)

    def served_by_path(self, user, sent, moment):
        given = sent.message
        if given.kind == "stat":
            return user.stat(user.existing(sent.root, given.rest)[1])
        deeds = {"unlink": user.unlink, "mknod": user.mkdir, "rename": user.rename}
        return deeds[given.kind](sent.root, given, moment)

    def served_by_block(self, thread, number, moment):
        sent, user = thread.sent, thread.process.user
        given, block = sent.message, user.blocks[number]
        inode = user.inodes[block.inode]
        if given.kind in ("read", "write"):
            if not block.flags & (READ if given.kind == "read" else WRITE):
                raise Failed("EBADF")
            if inode.kind == DIRECTORY:
                raise Failed("EISDIR")
            if inode.kind != FILE:
                call = Call(thread, thread.calls, number, getattr(given, "count", None), getattr(given, "data", None))
                return user.call_waiting(inode, call, sent, moment)
            return user.read(block, inode, given) if given.kind == "read" else user.write(block, inode, given.data, moment)
        deeds = {
            "lseek": lambda: user.seek(block, inode, given),
            "fstat": lambda: user.stat(inode),
            "list": lambda: user.list(inode, given.after),
            "chmod": lambda: user.chmod(inode, given.mode, moment),
            "notify": lambda: user.notify(thread.process, number, given),
        }
        return deeds[given.kind]()


def user_of(step):
    """The name of the user of a client's step, None of a worker's."""
    if step.word in ("receive", "perform"):
        return None
    return step.values[0] if step.word == "spawn" else step.values[0][0]


def actor_of(step):
    """Who takes a client's step, as it is printed."""
    name = step.values[0]
    return name if step.word == "spawn" else ".".join(map(str, name))


def is_in_ranges(request):
    """Whether the fields of a request are in the ranges of its message."""
    if request.kind == "open":
        return bool(request.flags & (READ | WRITE))
    if request.kind == "read":
        return request.count <= MOST_BYTES
    if request.kind == "write":
        return len(request.data) <= MOST_BYTES
    if request.kind == "list":
        return not request.after or is_component(request.after)
    if request.kind == "notify":
        return request.code <= 127 and request.value < 2**request.first_bit
    return request.kind != "raw" or len(request.data) <= HEADER + MOST_BODY


# ---- scripts (docs/SCRIPT.md)


class BadLine(Exception):
    """The number of the first bad line."""


class BadWord(Exception):
    """A word is out of its form or range."""


def matched(form, word):
    if not re.fullmatch(form, word):
        raise BadWord
    return word


def number_form(low, high, form="0|[1-9][0-9]*"):
    """Reads a number within a range. The second of what a form returns is the word as a trace has it."""

    def read(word, names):
        value = int(matched(form, word)) if len(word) <= 20 else high + 1
        if not low <= value <= high:
            raise BadWord
        return value, str(value)

    return read


def choice_form(*words):
    def read(word, names):
        if word not in words:
            raise BadWord
        return word, word

    return read


def name_form(count):
    """Reads the name of a user, a process or a thread: a user's name and so many numbers."""

    def read(word, names):
        parts = word.split(".")
        if len(parts) != count + 1 or parts[0] not in names:
            raise BadWord
        numbers = [number_form(0, 255)(part, names)[0] for part in parts[1:]]
        return (parts[0], *numbers) if count else word, word

    return read


def flags_form(word, names):
    if not word or not set(word) <= set(FLAG_LETTERS) or len(set(word)) != len(word):
        raise BadWord
    return sum(1 << FLAG_LETTERS.index(letter) for letter in word), "".join(sorted(word, key=FLAG_LETTERS.index))


def bytes_form(word, names):
    data = b"" if word == "-" else bytes.fromhex(matched("([0-9a-fA-F]{2})+", word))
    return data, data.hex() or "-"


def conditions_form(word, names):
    return {"i": INPUT, "o": OUTPUT, "io": INPUT | OUTPUT}[choice_form("i", "o", "io")(word, names)[0]], word


def manager_form(word, names):
    return MANAGERS.index(choice_form(*MANAGERS)(word, names)[0]), word


BYTE = number_form(0, 255)
MOMENT = number_form(0, 2**64 - 1)

FORMS = {
    "U": name_form(0),
    "P": name_form(1),
    "T": name_form(2),
    "W": BYTE,
    "THREADS": BYTE,
    "PRIO": BYTE,
    "COID": BYTE,
    "CODE": BYTE,
    "COUNT": number_form(0, 2**32 - 1),
    "FILLED": number_form(0, 65_535),
    "VALUE": number_form(0, 2**32 - 1),
    "WIDE": MOMENT,
    "MOMENT": MOMENT,
    "BY": number_form(-(2**63), 2**63 - 1, "-?(0|[1-9][0-9]*)"),
    "PATH": lambda word, names: (word, word),
    "FLAGS": flags_form,
    "MODE": lambda word, names: (int(matched("[0-7]{3}", word), 8), word),
    "HEX": bytes_form,
    "HH": lambda word, names: bytes_form(matched("..", word), names),
    "CONDS": conditions_form,
    "WHENCE": choice_form(*WHENCES),
    "ACTION": choice_form(*ACTIONS),
    "MANAGER": manager_form,
}

# The forms of the words behind the first one. Those of CALLS may stand behind `do MOMENT` too.
CALLS = {
    "open": "T PATH FLAGS MODE",
    "stat": "T PATH",
    "unlink": "T PATH",
    "mkdir": "T PATH MODE",
    "rename": "T PATH PATH",
    "read": "T COID COUNT",
    "write": "T COID HEX",
    "fill": "T COID FILLED HH",
    "close": "T COID",
    "dup": "T COID",
    "seek": "T COID WHENCE BY",
    "fstat": "T COID",
    "list": "T COID PATH",
    "chmod": "T COID MODE",
    "notify": "T COID ACTION CONDS CODE VALUE",
    "notify64": "T COID ACTION CONDS CODE WIDE",
    "raw": "T COID HEX",
}
OTHERS = {
    "spawn": "U THREADS PRIO",
    "exit": "P",
    "interrupt": "T",
    "reply": "T",
    "pulse": "P",
    "prio": "T PRIO",
    "mount": "T PATH MANAGER",
    "receive": "W MANAGER",
    "perform": "W MOMENT",
}
COMMANDS = {"serve": "MOMENT", "show": "U", "erased": "U", "trace": ""}

# What a call asks for, by its first word and what the others say.
REQUESTS = {
    "open": lambda path, flags, mode: message("open", path=path, flags=flags, mode=mode),
    "stat": lambda path: message("stat", path=path),
    "unlink": lambda path: message("unlink", path=path),
    "mkdir": lambda path, mode: message("mknod", path=path, mode=mode),
    "rename": lambda path, to: message("rename", path=path, to_path=to),
    "read": lambda coid, count: message("read", coid=coid, count=count),
    "write": lambda coid, data: message("write", coid=coid, data=data),
    "close": lambda coid: message("close", coid=coid),
    "dup": lambda coid: message("dup", coid=coid),
    "seek": lambda coid, whence, by: message("lseek", coid=coid, whence=whence, by=by),
    "fstat": lambda coid: message("fstat", coid=coid),
    "list": lambda coid, after="": message("list", coid=coid, after=after),
    "chmod": lambda coid, mode: message("chmod", coid=coid, mode=mode),
    "notify": lambda coid, *wanted: notification(coid, 28, *wanted),
    "notify64": lambda coid, *wanted: notification(coid, 60, *wanted),
    "raw": lambda coid, data: message("raw", coid=coid, data=data),
}


def notification(coid, bit, action, conditions, code, value):
    return message("notify", coid=coid, action=action, conditions=conditions, code=code, value=value, first_bit=bit)


def read_words(forms, words, names):
    """What the words say by their forms, and as a trace has them."""
    if len(forms) != len(words):
        raise BadWord
    read = [FORMS[form](word, names) for form, word in zip(forms, words)]
    return [value for value, _ in read], [text for _, text in read]


def read_step(words, names):
    """The step of a line's words."""
    word = words[0]
    if word in OTHERS:
        values, texts = read_words(OTHERS[word].split(), words[1:], names)
        return Step(word, tuple(values), " ".join([word, *texts]))
    if word not in CALLS:
        raise BadWord
    forms = CALLS[word].split()
    if word == "list" and len(words) == 3:
        forms.pop()
    values, texts = read_words(forms, words[1:], names)
    if word == "fill":
        word, data = "write", values[3] * values[2]
        values, texts = [*values[:2], data], [*texts[:2], data.hex() or "-"]
    return Step("call", (values[0], REQUESTS[word](*values[1:])), " ".join([word, *texts]))


# A line behind the configuration: its first word, a step or what else it says, and the moment of a `do`.
Line = namedtuple("Line", "word said moment", defaults=[None])


class Configuration:
    """The users and the workers of a script, and what is set for users, as its first lines say."""

    def __init__(self):
        self.names = []
        self.workers = None
        self.ceilings = {}
        self.disconnects = {}
        self.limits = {}

    def enter(self, words):
        """Enters a line, if it is one of the configuration, and says whether it is."""
        if words[0] not in ("user", "ceiling", "disconnect", "limit", "workers"):
            return False
        getattr(self, f"enter_{words[0]}")(words[1:])
        return True

    def enter_user(self, words):
        if len(words) != 1 or words[0] in self.names or len(self.names) == 16:
            raise BadWord
        self.names.append(matched("[a-z][a-z0-9]{0,15}", words[0]))

    def enter_ceiling(self, words):
        self.enter_priority(self.ceilings, words)

    def enter_disconnect(self, words):
        self.enter_priority(self.disconnects, words)

    def enter_priority(self, priorities, words):
        (name, priority), _ = read_words(["U", "PRIO"], words, self.names)
        if name in priorities or priority == 0:
            raise BadWord
        priorities[name] = priority

    def enter_limit(self, words):
        if len(words) != 3 or words[1] not in LIMITS:
            raise BadWord
        (name,), _ = read_words(["U"], words[:1], self.names)
        limits = self.limits.setdefault(name, {})
        if words[1] in limits:
            raise BadWord
        limits[words[1]] = number_form(1, LIMITS[words[1]])(words[2], self.names)[0]

    def enter_workers(self, words):
        if len(words) != 1 or self.workers is not None:
            raise BadWord
        self.workers = number_form(1, 8)(words[0], self.names)[0]

    def world(self):
        return World(self.names, self.workers or 1, self.ceilings, self.disconnects, self.limits)


def numbered_lines(text):
    """The lines that are not skipped, each with its number."""
    return [(number, line) for number, line in enumerate(text.split("\n"), 1) if line and line[0] != "#"]


def words_of(line):
    words = [word for word in line.split(" ") if word]
    if not words:
        raise BadWord
    return words


def read_line(words, names):
    """A line behind the configuration."""
    word = words[0]
    if word in COMMANDS:
        return Line(word, *read_words(COMMANDS[word].split(), words[1:], names)[:1])
    if word != "do":
        return Line("step", read_step(words, names))
    if len(words) < 3 or words[2] not in CALLS:
        raise BadWord
    (moment,), _ = read_words(["MOMENT"], words[1:2], names)
    return Line("do", read_step(words[2:], names), moment)


def read_script(text):
    """The configuration and the lines of a script; `BadLine` where one is bad."""
    configuration, lines = Configuration(), []
    for number, line in numbered_lines(text):
        try:
            words = words_of(line)
            if lines or not configuration.enter(words):
                lines.append(read_line(words, configuration.names))
        except BadWord:
            raise BadLine(number) from None
    return configuration, lines


class Player:
    """Plays lines in a `world`. `printed` has the lines that were printed."""

    def __init__(self, configuration):
        self.configuration = configuration
        self.world = configuration.world()
        self.printed = []

    def play(self, line):
        deeds = {"serve": self.serve, "show": self.show, "erased": self.erased, "trace": self.trace}
        if line.word == "step":
            self.world.take(line.said)
        elif line.word == "do":
            self.do(line.said, line.moment)
        else:
            deeds[line.word](*line.said)

    def serve(self, moment):
        """Worker 1 performs what it holds, and then all that waits."""
        perform = Step("perform", (1, moment), f"perform 1 {moment}")
        if self.world.hands[1] is not None:
            self.world.take(perform)
        while any(self.world.lines):
            manager = next(number for number, line in enumerate(self.world.lines) if line)
            self.world.take(Step("receive", (1, manager), f"receive 1 {MANAGERS[manager]}"))
            self.world.take(perform)

    def do(self, call, moment):
        if self.world.take(call) != "sent":
            return
        self.serve(moment)
        name = call.values[0]
        if self.world.thread(name).state == "answered":
            self.world.take(Step("reply", (name,), f"reply {actor_of(call)}"))

    def show(self, name):
        self.printed += transcript(self.world, name)

    def erased(self, name):
        self.printed += transcript(erased_run(self.configuration, self.world, name), name)

    def trace(self):
        self.printed += [f"{taken.number} {taken.step.text} -> {taken.outcome}" for taken in self.world.history]


def transcript(world, name):
    """What a user's processes received so far."""
    steps = [taken for taken in world.history if user_of(taken.step) == name]
    return [f"{actor_of(taken.step)} {taken.outcome}" for taken in steps]


def erased_run(configuration, world, name):
    """A world in which those steps were taken that were taken by or for a user."""
    anew = configuration.world()
    for taken in world.history:
        if taken.owner == name:
            anew.take(taken.step)
    return anew


# The most bytes of a script.
MOST_SCRIPT = 1_048_576


def run(text):
    """What `qnxsh` prints for a script, its report on standard error, and its exit status."""
    if len(text) > MOST_SCRIPT:
        return "", "qnxsh: input\n", 1
    try:
        configuration, lines = read_script(text)
    except BadLine as bad:
        return "", f"qnxsh: line {bad}\n", 3
    player = Player(configuration)
    for line in lines:
        player.play(line)
    return "".join(f"{line}\n" for line in player.printed), "", 0


# ---- the check of a trace


class BadInput(Exception):
    """What is wrong with the input."""


def read_trace(text):
    """The configuration, and the steps with their outcomes."""
    configuration, steps = Configuration(), []
    for number, line in numbered_lines(text):
        try:
            words = words_of(line)
            if not steps and configuration.enter(words):
                continue
            taken, arrow, outcome = line.rpartition(" -> ")
            place, *words = words_of(taken)
            if not arrow or place != str(len(steps) + 1):
                raise BadInput(f"line {number} is not step {len(steps) + 1} of a trace")
            steps.append((read_step(words_of(" ".join(words)), configuration.names), outcome))
        except BadWord:
            raise BadInput(f"line {number} is neither of the configuration nor of a trace") from None
    if not steps:
        raise BadInput("there is no step")
    return configuration, steps


def check(text):
    """The lines that report a first difference, none where all agree; and the number of steps."""
    configuration, steps = read_trace(text)
    world = configuration.world()
    for number, (step, outcome) in enumerate(steps, 1):
        cause = cause_of(world, step, number)
        rows = rows_of(world, step)
        own = world.take(step)
        if own != outcome:
            report = [f"step {number}: {step.text}", f"  the trace has   {outcome}", f"  the rules give  {own}"]
            return report + [f"  {row}" for row in rows + cause_rows(configuration, steps, cause, number)], number
    return [], len(steps)


def cause_of(world, step, number):
    """The number of the step that decided the outcome: of a reply, the one in which the thread was answered."""
    if step.word != "reply":
        return number
    try:
        return world.thread(step.values[0], "answered").answered_in
    except WrongState:
        return number


def cause_rows(configuration, steps, cause, number):
    """The rows before an earlier step that decided."""
    if cause == number:
        return []
    world = configuration.world()
    for step, _ in steps[: cause - 1]:
        world.take(step)
    step = steps[cause - 1][0]
    return [f"it was answered in step {cause}: {step.text}; before that:", *rows_of(world, step)]


def rows_of(world, step):
    """The rows that decide a step, each in a line."""
    if step.word == "receive":
        worker, manager = step.values
        items = ", ".join(f"{item} {item.priority}" for item in world.lines[manager])
        return [f"worker {worker} holds: {world.hands.get(worker)}", f"line of {MANAGERS[manager]}: {items or 'empty'}"]
    if step.word == "perform":
        item = world.hands.get(step.values[0])
        rows = [f"worker {step.values[0]} holds: {item}"]
        if item is not None and item.kind == "message" and not item.process.has_ended:
            sent = item.thread.sent
            rows += [f"message: {shown(sent.message)} to {MANAGERS[sent.manager]}, over {sent.over} {sent.coid or ''}"]
            rows += user_rows(item.process.user, item.process, getattr(sent.message, "old", sent.coid))
            for rest in [getattr(sent.message, "rest", None), getattr(sent.message, "to", None)]:
                rows += walk_rows(item.process.user, sent.root, rest) if sent.root and rest is not None else []
        return rows
    user = world.users[user_of(step)]
    process = None if step.word == "spawn" else user.processes.get(step.values[0][1])
    request = step.values[1] if step.word == "call" else None
    rows = [f"user {user.name}: ceiling {user.ceiling}, disconnect {user.disconnect}, limits {user.limits}"]
    rows += [f"mount {'/' + '/'.join(mount.prefix)}: {MANAGERS[mount.manager]}, root {mount.root}" for mount in user.mounts]
    if process is None:
        return [*rows, f"processes: {sorted(user.processes)}"]
    return rows + user_rows(user, process, getattr(request, "coid", None))


def user_rows(user, process, coid):
    """A process, its threads, and what its connection of that number has open."""
    ended = ", ended" if process.has_ended else ""
    rows = [f"process {process.name}{ended}: servers {process.servers}, pulses {process.pulses}"]
    for thread in process.threads.values():
        rows.append(f"thread {thread.name}: {thread.state}, priority {thread.priority}, answer {thread.answer}")
    connection = process.connections.get(coid)
    rows.append(f"connection {coid}: {shown(connection) if connection else 'none'}; all: {sorted(process.connections)}")
    block = user.blocks.get(connection.block) if connection else None
    if block is not None:
        rows.append(f"block {connection.block}: flags {block.flags}, offset {block.offset}, uses {block.uses}")
        rows.append(inode_row(user.inodes[block.inode]))
    rows.append(f"inodes: {len(user.inodes)}, blocks: {len(user.blocks)}, events: {len(user.events)}")
    return rows


def inode_row(inode):
    waiting = f"{len(inode.readers)} readers and {len(inode.writers)} writers wait"
    row = f"inode {inode.number}: {KIND_WORDS[inode.kind]}, mode {inode.mode:03o}, links {inode.links}, {len(inode.data)} bytes"
    return f"{row}, names {inode.names}, {waiting}"


def walk_rows(user, root, rest):
    """What stands along a path, from the root of its mount on."""
    inode, rows = user.inodes[root], []
    for name in rest:
        rows.append(f"on the way to {name}: {inode_row(inode)}")
        inode = user.inodes.get(inode.names.get(name))
        if inode is None:
            return rows
    return [*rows, f"there: {inode_row(inode)}"]


def shown(row):
    return " ".join(f"{key} {value}" for key, value in vars(row).items())


def main():
    words = sys.argv[1:]
    if words not in ([], ["--run"]):
        print("model: no word, or --run", file=sys.stderr)
        return 2
    text = sys.stdin.buffer.read().decode("latin-1")
    if words:
        printed, report, status = run(text)
        sys.stdout.buffer.write(printed.encode("latin-1"))
        sys.stderr.write(report)
        return status
    try:
        report, count = check(text)
    except BadInput as bad:
        print(f"model: {bad}", file=sys.stderr)
        return 2
    lines = report or [f"{count} steps agree"]
    sys.stdout.buffer.write("".join(f"{line}\n" for line in lines).encode("latin-1", "replace"))
    return 1 if report else 0


if __name__ == "__main__":
    sys.exit(main())
