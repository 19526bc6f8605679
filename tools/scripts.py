#!/usr/bin/env python3
"""Prints a pseudo-random script (docs/SCRIPT.md): tools/scripts.py SEED STEPS [--bad]

Each line is chosen by what the model holds by then, so that in many scripts each outcome and each error comes: users, workers,
what is set for users and how a script goes on are drawn. It prints about STEPS lines that take steps. At its end stand a `trace`,
and a `show` and an `erased` of each user. With --bad, one line or more is changed so that it is bad most often.
The same words give the same script. Bad words are refused, with status 2.
"""

import random
import sys

from model import (
    DEVICE,
    DIRECTORY,
    FILE,
    FLAG_LETTERS,
    LIMITS,
    MANAGERS,
    PIPE,
    Player,
    READ,
    WRITE,
    read_line,
    read_script,
    words_of,
)

NAMES = ["ann", "bob", "cat", "dan", "anna", "a2345678901234z6"]

# The greatest number that is drawn for each small limit.
SMALL = {
    "processes": 4,
    "connections": 6,
    "servers": 6,
    "blocks": 8,
    "inodes": 14,
    "file": 200,
    "bytes": 250,
    "mounts": 6,
    "events": 5,
}

# How often each kind of line comes, by the way in which a script goes on. `do` is a call of one thread that is served at once,
# the others leave threads and workers to one another.
WAYS = {
    "alone": dict(do=90, mount=2, spawn=2, pulse=3, exit=1, prio=1),
    "busy": dict(call=40, receive=12, perform=12, reply=20, interrupt=5, mount=2, spawn=2, pulse=3, prio=3),
    "slow": dict(call=16, receive=24, perform=26, reply=14, interrupt=7, mount=1, spawn=1, pulse=2, prio=1),
    "guests": dict(call=36, receive=30, perform=30, reply=20, interrupt=12, exit=3, spawn=4, mount=1, pulse=4),
    "served": dict(call=30, serve=16, reply=20, interrupt=6, exit=1, spawn=1, mount=2, pulse=3, do=10),
}

# How often each kind of call comes, by what the script is about.
CALLS = dict(open=24, stat=4, unlink=6, mkdir=5, rename=9, read=14, write=14, fill=3, close=10, dup=5, seek=5, fstat=4)
CALLS |= dict(list=5, chmod=5, notify=12, notify64=4, raw=8)
OF_PATHS = ("open", "stat", "unlink", "mkdir", "rename")
TOPICS = {
    "all": CALLS,
    "files": CALLS | dict(read=8, write=8, mkdir=14, rename=24, stat=8, unlink=12, notify=2, notify64=1, chmod=8, list=8),
    "pipes": CALLS | dict(open=12, mkdir=1, rename=1, seek=1, read=30, write=20, fill=16, list=2, chmod=1, raw=4),
    "devices": CALLS | dict(open=12, mkdir=1, rename=1, seek=1, read=30, write=26, fill=3, list=2, chmod=1, raw=4),
    "events": CALLS | dict(open=12, mkdir=1, rename=1, seek=1, read=16, write=12, fill=10, list=1, notify=40, notify64=14),
}
# The limits that are drawn most often.
TIGHT = {"files": ["inodes", "file", "bytes", "blocks"], "pipes": ["servers"], "devices": ["inodes"], "events": ["events"]}
# The managers whose mounts most paths of a topic are in.
PLACES = {"pipes": [1], "devices": range(2, len(MANAGERS)), "events": range(1, len(MANAGERS))}

ODD_PATHS = ["ann", "/", "//", "/{}/..", "/./{}", "/{}/.", "/bob", "/ann", "/nobody", "/{}/\0", "-"]
ODD_PATHS += ["/{}/" + "a" * 64, "/{}/" + "a" * 65]


class Chooser:
    """Chooses the lines of a script, and plays them in the model to know what the next may be."""

    def __init__(self, seed, steps):
        self.dice = random.Random(seed)
        self.steps = steps
        self.lines = []
        self.topic = self.dice.choice(list(TOPICS))
        self.configure()
        self.player = Player(read_script("\n".join(self.lines))[0])
        self.world = self.player.world
        self.way = None
        self.coming = []

    # -- draws

    def one_in(self, number):
        return self.dice.randrange(number) == 0

    def weighted(self, weights):
        return self.dice.choices(list(weights), list(weights.values()))[0]

    def some(self, found, otherwise):
        """One of what was found, where there is something, and now and then another thing."""
        return self.dice.choice(found) if found and not self.one_in(24) else otherwise

    # -- the configuration

    def configure(self):
        dice = self.dice
        names = dice.sample(NAMES, dice.choice([1, 2, 2, 3, 4]))
        lines = [f"user {name}" for name in names]
        for name in names:
            if self.one_in(2):
                lines.append(f"ceiling {name} {dice.choice([1, 20, 127, 255])}")
            if self.one_in(2):
                lines.append(f"disconnect {name} {dice.choice([1, 10, 20, 30, 127, 255])}")
            small = TIGHT.get(self.topic, SMALL) if self.one_in(2) else SMALL if self.one_in(4) else ()
            for limit in small:
                most = SMALL[limit]
                if self.one_in(2):
                    lines.append(f"limit {name} {limit} {dice.choice([dice.randint(1, most), most, LIMITS[limit]])}")
        if self.one_in(4):
            lines.insert(0, f"workers {dice.randint(1, 8)}")
        elif self.one_in(2):
            lines.append(f"workers {dice.randint(2, 4)}")
        self.lines = lines

    # -- lines

    def begin(self):
        """Processes of each user, and most often mounts of all managers."""
        for user in self.world.users.values():
            for _ in range(self.dice.choice([1, 2, 3])):
                self.add(f"spawn {user.name} 4 {self.priority(user)}")
            for word in MANAGERS[1:] if not self.one_in(3) else ():
                self.add(f"mount {user.name}.1.1 /{user.name}/{word} {word}")

    def script(self):
        if not self.one_in(4):
            self.begin()
        for number in range(self.steps):
            if number % 40 == 0:
                self.way = WAYS[self.dice.choice(list(WAYS))]
            if self.one_in(30):
                self.scene()
            self.add(self.next_of_scene() or self.chosen_line())
            if self.one_in(60):
                self.lines.append(self.dice.choice(["", "# a comment"]))
        for name in self.world.users:
            self.lines += [f"show {name}", f"erased {name}"]
        self.lines.append("trace")
        return "\n".join(self.lines) + ("\n" if self.one_in(2) else "")

    def add(self, line):
        self.player.play(read_line(words_of(line), list(self.world.users)))
        self.lines.append(line if not self.one_in(40) else f"  {line.replace(' ', '  ')} ")

    def chosen_line(self):
        if not any(user.processes for user in self.world.users.values()):
            return self.spawned()
        if self.one_in(80):
            return self.dice.choice(["trace", f"show {self.user().name}", f"erased {self.user().name}"])
        return getattr(self, self.weighted(self.way))()

    def user(self):
        return self.dice.choice(list(self.world.users.values()))

    def threads(self, *states):
        """The threads of all processes in one of these states, or in any."""
        users = self.world.users.values()
        threads = [thread for user in users for process in user.processes.values() for thread in process.threads.values()]
        return [thread for thread in threads if not states or thread.state in states]

    def any_thread(self):
        """A thread's name, whether it is there or not; most often of a process that has ended, where there is one."""
        ended = [process for user in self.world.users.values() for process in user.processes.values() if process.has_ended]
        if ended and not self.one_in(3):
            return f"{self.dice.choice(ended).name}.1"
        return f"{self.user().name}.{self.dice.choice([0, 1, 1, 2, 3, 17, 255])}.{self.dice.choice([0, 1, 1, 2, 4, 5])}"

    def thread(self, *states):
        """A thread in one of these states where there is one, and its name."""
        found = self.some(self.threads(*states), None)
        return found, found.name if found else self.any_thread()

    def spawn(self):
        if not self.one_in(4) and all(len(user.processes) > 3 for user in self.world.users.values()):
            return self.call()
        return self.spawned()

    def spawned(self):
        user = self.user()
        threads = self.dice.choice([4, 4, 4, 1, 2, 3, 0, 5] if self.one_in(4) else [1, 2, 4])
        return f"spawn {user.name} {threads} {self.priority(user)}"

    def priority(self, user):
        if self.one_in(12):
            return self.dice.choice([0, user.ceiling, min(user.ceiling + 1, 255), 255])
        return self.dice.randint(1, min(user.ceiling, 60))

    def exit(self):
        """Most often of a process that waits where another process may call, or of which a pulse is held or an event armed."""
        users = self.world.users.values()
        held = [item.process for item in self.world.hands.values() if item and item.kind == "unblock"]
        armed = [event.process for user in users for event in user.events]
        waiting = [thread.process for thread in self.threads("waiting")]
        found = [self.blocking_processes(), self.blocking_processes(), held, armed, waiting]
        living = [process for process in self.dice.choice(found) if not process.has_ended]
        if living:
            return f"exit {self.dice.choice(living).name}"
        return f"exit {self.thread()[1].rpartition('.')[0]}" if self.one_in(3) else self.call()

    def blocking_processes(self):
        """The processes of which calls wait, or that have armed events, where another process has a block."""
        found = []
        for user in self.world.users.values():
            for block in user.blocks.values():
                waiting = user.inodes[block.inode].readers + user.inodes[block.inode].writers
                armed = [event.process for event in user.events if user.blocks[event.block].inode == block.inode]
                processes = [call.thread.process for call in waiting] + armed
                found += [process for process in processes if process is not block.process]
        return found

    def reply(self):
        """Most often of a thread for which a worker holds an unblock pulse, so that a later call comes before it."""
        late = [thread.name for thread in self.late_threads("answered")]
        if not late and not self.threads("answered") and not self.one_in(6):
            return self.going_on()
        return f"reply {self.dice.choice(late) if late and not self.one_in(3) else self.thread('answered')[1]}"

    def late_threads(self, state):
        """The threads in a state for which a worker holds an unblock pulse."""
        held = [item.thread for item in self.world.hands.values() if item and item.kind == "unblock"]
        return [thread for thread in held if thread.state == state and not thread.process.has_ended]

    def interrupt(self):
        states = self.dice.choice([["taken", "waiting"], ["waiting"], ["queued"], []])
        return f"interrupt {self.thread(*states)[1]}"

    def pulse(self):
        users = self.world.users.values()
        found = [process.name for user in users for process in user.processes.values() if process.pulses]
        return f"pulse {self.some(found, self.thread()[1].rpartition('.')[0])}"

    def prio(self):
        thread, name = self.thread()
        return f"prio {name} {self.priority(thread.process.user if thread else self.user())}"

    def mount(self):
        thread, name = self.thread("ready")
        user = thread.process.user if thread else self.user()
        mounted = [mount.manager for mount in user.mounts]
        managers = [word for number, word in enumerate(MANAGERS) if number not in mounted] or MANAGERS
        manager = self.dice.choice(managers if not self.one_in(4) else MANAGERS)
        path = f"/{user.name}/{manager}" if not self.one_in(4) else self.path(user)
        return f"mount {name} {path} {manager}"

    def worker(self, is_busy):
        found = [number for number, item in self.world.hands.items() if bool(item) == is_busy]
        return self.some(found, self.dice.choice([0, 1, 2, 9]))

    def receive(self):
        if not any(self.world.lines) and not self.one_in(6):
            return self.call()
        lines = [word for word, line in zip(MANAGERS, self.world.lines) if line]
        return f"receive {self.worker(False)} {self.some(lines, self.dice.choice(MANAGERS))}"

    def perform(self):
        """A pulse is left to be late most often, and so is a message that was asked to unblock its thread."""
        if not any(self.world.hands.values()) and not self.one_in(6):
            return self.receive()
        early = [number for number, item in self.world.hands.items() if item and not self.is_late(item)]
        worker = self.dice.choice(early) if early and not self.one_in(4) else self.worker(True)
        return f"perform {worker} {self.moment()}"

    def is_late(self, item):
        return item.kind != "message" or not item.process.has_ended and item.thread.sent.is_asked

    def serve(self):
        return f"serve {self.moment()}"

    def moment(self):
        return 2**64 - 1 if self.one_in(200) else self.dice.randrange(200)

    # -- scenes

    def scene(self):
        """The lines of a scene: of two processes at a pipe or a device one waits, and then one of both ends."""
        user = self.user()
        mounts = [mount for mount in user.mounts if mount.manager and len(mount.prefix) < 4]
        living = [process for process in user.processes.values() if not process.has_ended]
        pipes = [mount for mount in mounts if mount.manager == MANAGERS.index("pipe")]
        if mounts and len(living) > 1:
            mount = self.dice.choice(pipes if pipes and self.one_in(2) else mounts)
            path = f"/{'/'.join(mount.prefix)}/{self.letter()}"
            one, other = self.dice.sample(living, 2)
            self.coming = self.waiting_lines(one, other, path) + self.ending_lines(one, other, path, MANAGERS[mount.manager])

    def waiting_lines(self, one, other, path):
        """Both open a path, and one of them waits, or both."""
        flags = self.dice.choice([("r", "w"), ("w", "r"), ("rw", "rw"), ("w", "rw"), ("r", "rw")])
        lines = [self.opening(process, path, letters) for process, letters in zip((one, other), flags)]
        if self.one_in(3):
            lines.append(lambda: self.over(one, path, "do 1 notify", "tranarm io 1 1"))
        waits = ["do 2 read", "1"] if flags[0] == "r" else ["do 2 fill", "4096 61"]
        first = waits if self.one_in(2) else ["do 2 fill", "4090 61"]
        lines += [lambda: self.over(one, path, *first), lambda: self.over(one, path, *waits)]
        if self.one_in(2):
            lines.append(lambda: self.over(other, path, "do 2 write", "01"))
        return lines

    def ending_lines(self, one, other, path, manager):
        """One is interrupted while it waits, closes or ends, and what comes of that is done in any order."""
        last = self.dice.choice([one, one, other])
        left = other if last is one else one
        word = self.dice.choice(["data", "data", "close"])
        lines = [lambda: self.interrupted(one), lambda: f"receive 2 {manager}"] if self.one_in(2) else []
        if self.one_in(4):
            lines.append(lambda: self.over(one, path, "do 3 close", ""))
        else:
            lines += [lambda: f"exit {last.name}", lambda: f"receive 3 {manager}"]
        call = [lambda: self.late_call(left, path, word), lambda: f"receive 1 {manager}", lambda: "perform 1 3"]
        ends = [call, [lambda: "perform 3 4"], [lambda: "perform 2 5"]]
        self.dice.shuffle(ends)
        return lines + sum(ends, [])

    def next_of_scene(self):
        """The next line of a scene that can be said, if there is one."""
        while self.coming:
            line = self.coming.pop(0)()
            if line:
                return line
        return None

    def opening(self, process, path, letters):
        return lambda: self.said(process, "do 0 open", f"{path} {letters}c 700")

    def said(self, process, word, rest):
        """A call of a ready thread of a process, if it has one."""
        ready = [thread for thread in process.threads.values() if thread.state == "ready"]
        return f"{word} {ready[0].name} {rest}".rstrip() if ready else None

    def over(self, process, path, word, rest):
        """A call over the last connection of a process to what a path leads to, if it has one."""
        user = process.user
        mount, parts = user.place_of(path, self.world.users)
        number = user.inodes[mount.root].names.get(parts[0]) if len(parts) == 1 else None
        found = [coid for coid, it in process.connections.items() if it.block and user.blocks[it.block].inode == number]
        return self.said(process, word, f"{found[-1]} {rest}") if found else None

    def interrupted(self, process):
        waiting = [thread.name for thread in process.threads.values() if thread.state == "waiting"]
        return f"interrupt {waiting[-1]}" if waiting else None

    def late_call(self, process, path, word):
        """What works on a pipe or a device while what is left of an ended process is there."""
        if word == "close":
            return self.over(process, path, "close", "")
        reads = self.over(process, path, "read", self.dice.choice(["0", "1", "4096"]))
        return self.dice.choice([reads, self.over(process, path, "write", self.dice.choice(["-", "00", "0102"]))])

    # -- calls

    def do(self):
        line = self.call()
        return f"do {self.moment()} {line}" if line.split()[0] in CALLS else line

    def call(self):
        if not self.threads("ready") and not self.one_in(12):
            return self.going_on()
        left = self.calls_at_what_is_left()
        if left and not self.one_in(3):
            return self.dice.choice(left)
        thread = self.calling_thread()
        if thread is None:
            return f"fstat {self.any_thread()} 3"
        kind = self.weighted(TOPICS[self.topic])
        if kind not in OF_PATHS and len(thread.process.connections) < 2 and not self.one_in(9):
            kind = "open"
        return f"{kind} {thread.name} {getattr(self, f'call_{kind}')(thread.process)}"

    def going_on(self):
        """A step that lets blocked threads go on."""
        may = {
            self.reply: self.threads("answered"),
            self.perform: any(self.world.hands.values()),
            self.receive: any(self.world.lines) and None in self.world.hands.values(),
        }
        found = [line for line, holds in may.items() if holds] or [self.interrupt, self.spawned]
        return self.dice.choice(found)()

    def calls_at_what_is_left(self):
        """Calls where calls of ended processes wait or their events are armed, so that these go before the disconnect pulse."""
        found = []
        for user in self.world.users.values():
            waiting = [call for inode in user.inodes.values() for call in inode.readers + inode.writers]
            blocks = [call.block for call in waiting if call.thread.process.has_ended]
            blocks += [event.block for event in user.events if event.process.has_ended]
            left = {user.blocks[block].inode for block in blocks}
            for thread in self.threads("ready") if left else ():
                connections = thread.process.connections.items() if thread.process.user is user else ()
                for coid, connection in connections:
                    block = user.blocks.get(connection.block)
                    if block and block.inode in left:
                        found += [f"read {thread.name} {coid} {count}" for count in (0, 1, 4_096)]
                        found += [f"write {thread.name} {coid} {data}" for data in ("-", "00")]
                        found.append(f"close {thread.name} {coid}")
        return found

    def calling_thread(self):
        """A ready thread most often, and as often as another one for which a worker holds an unblock pulse."""
        late = self.late_threads("ready")
        if late and not self.one_in(3):
            return self.dice.choice(late)
        ready = self.threads("ready")
        able = [thread for thread in ready if len(thread.process.connections) > 1]
        return self.some(able if able and not self.one_in(4) else ready, self.some(self.threads(), None))

    def flags(self, flags):
        letters = [letter for place, letter in enumerate(FLAG_LETTERS) if flags >> place & 1]
        self.dice.shuffle(letters)
        return "".join(letters)

    def call_open(self, process):
        user = process.user
        if self.one_in(12):
            return f"/{user.name} r 000"
        access = self.dice.choice(["r", "w", "rw", "rw", "r", "w", ""] if self.one_in(6) else ["r", "w", "rw"])
        making = self.dice.choices(["c", "", "cx", "x"], [20, 3, 1, 1])[0]
        more = self.dice.choices(["", "a", "t", "n", "tn", "at"], [20, 2, 2, 2, 1, 1])[0]
        letters = list(access + making + more) or ["c"]
        self.dice.shuffle(letters)
        return f"{self.path(user)} {''.join(letters)} {self.mode()}"

    def mode(self):
        odd = "000 077 400 200 100 500 600 300 777".split()
        return self.dice.choice(odd if self.one_in(6) else ["700", "600", "777"])

    def call_stat(self, process):
        return self.path(process.user)

    call_unlink = call_stat

    def call_mkdir(self, process):
        return f"{self.path(process.user)} {self.mode()}"

    def call_rename(self, process):
        old = self.path(process.user)
        new = self.dice.choices([self.path(process.user), old + "/", f"{old}/a", old[:-1] + self.letter()], [10, 1, 2, 4])[0]
        return f"{old} {new}"

    def letter(self):
        return self.dice.choice("abcdef")

    def path(self, user):
        """A path: of what is there, beside or below it, of a mount, or an odd one."""
        if self.one_in(20):
            return self.odd_path(user)
        mounts = [mount for mount in user.mounts if mount.manager in PLACES.get(self.topic, ())]
        if mounts and not self.one_in(4):
            return f"/{'/'.join(self.dice.choice(mounts).prefix)}/{self.dice.choice('aaab')}"
        known = self.known_paths(user)
        path = self.dice.choice(known)
        way = self.dice.randrange(10)
        if way < 4:
            return path
        if way < 7:
            return f"{path}/{self.letter()}"
        mount = self.dice.choice(user.mounts)
        path = "/" + "/".join(mount.prefix)
        return f"{path}/{self.letter()}" if way < 9 else f"/{path}//{self.letter()}/{self.letter()}/"

    def odd_path(self, user):
        if self.one_in(4):
            length = 1_023 + self.dice.randrange(3)
            path = "/" + user.name
            while len(path) < length:
                path += "/" + "p" * min(63, length - len(path) - 1) if length - len(path) > 1 else "/"
            return path
        return self.dice.choice(ODD_PATHS).format(user.name)

    def known_paths(self, user):
        """The paths that lead to something."""
        found = []
        left = [("/" + "/".join(mount.prefix), user.inodes[mount.root]) for mount in user.mounts]
        while left:
            path, inode = left.pop()
            found.append(path)
            left += [(f"{path}/{name}", user.inodes[number]) for name, number in inode.names.items()]
        return sorted(found)

    def coid(self, process, *kinds, flag=0):
        """A connection to something of these kinds, or any, that is open with a flag; now and then one that is not open."""
        user = process.user
        found = []
        for coid, connection in process.connections.items():
            block = user.blocks.get(connection.block)
            if block and (not kinds or user.inodes[block.inode].kind in kinds) and block.flags & flag == flag:
                found.append(coid)
        return self.some(found, self.dice.choice([*process.connections, 3, 3, 4, 5, 66, 67, 0]))

    def inode_of(self, process, coid):
        connection = process.connections.get(coid)
        block = process.user.blocks.get(connection.block) if connection else None
        return process.user.inodes[block.inode] if block else None

    def data_kinds(self):
        kinds = [(FILE,), (PIPE, DEVICE)] if self.topic in ("all", "files") else [(PIPE, DEVICE)]
        return () if self.one_in(8) else self.dice.choice(kinds)

    def call_read(self, process):
        coid = self.coid(process, *self.data_kinds(), flag=0 if self.one_in(8) else READ)
        count = self.dice.choices([1, self.dice.randrange(100), 0, 4_096, 4_097, 2**32 - 1], [8, 8, 2, 6, 1, 1])[0]
        return f"{coid} {count}"

    def call_write(self, process):
        coid = self.coid(process, *self.data_kinds(), flag=0 if self.one_in(8) else WRITE)
        inode = self.inode_of(process, coid)
        if inode is not None and inode.device == "pump" and not self.one_in(4):
            return f"{coid} {self.dice.choice('00 00 00 03 04 05 010100 010200 020300 020800 06 020000'.split())}"
        length = self.dice.choice([0, 1, 1, 2, 3, 5, 20])
        return f"{coid} {self.dice.randbytes(length).hex() or '-'}"

    def call_fill(self, process):
        coid = self.coid(process, PIPE, DEVICE, FILE, flag=WRITE)
        return f"{coid} {self.dice.choice([4_096, 4_096, 4_090, 100, 1, 0, 4_097])} {self.dice.choice(['00', 'aB', '7a'])}"

    def call_close(self, process):
        return str(self.coid(process))

    call_dup = call_close
    call_fstat = call_close

    def call_seek(self, process):
        whence = self.dice.choice(["set", "cur", "end"])
        by = self.dice.choice([0, 1, -1, 5, -5, 61_440, 65_536, 150, 2**63 - 1, -(2**63), "-0"])
        return f"{self.coid(process, *self.dice.choice([(FILE,), (FILE,), ()]))} {whence} {by}"

    def call_list(self, process):
        coid = self.coid(process, *self.dice.choice([(DIRECTORY,), (DIRECTORY,), ()]))
        after = self.dice.choice(["", "", "a", "b", "c", "zz", "..", "a/b", "a" * 65, "\0"])
        return f"{coid} {after}".rstrip(" ")

    def call_chmod(self, process):
        return f"{self.coid(process)} {self.mode()}"

    def call_notify(self, process, most=2**28):
        coid = self.coid(process, *self.dice.choice([(), (PIPE, DEVICE), (PIPE, DEVICE)]))
        action = self.dice.choice(["poll", "pollarm", "pollarm", "tranarm", "tranarm"])
        code = self.dice.choice([0, 1, 7, 127, 128] if self.one_in(6) else [0, 1, 7])
        value = self.dice.choice([most - 1, most, 2**32 - 1] if self.one_in(8) else [0, 5, 99])
        return f"{coid} {action} {self.dice.choice(['i', 'o', 'io'])} {code} {value}"

    def call_notify64(self, process):
        return self.call_notify(process, 2**60)

    def call_raw(self, process):
        return f"{self.coid(process)} {self.raw().hex() or '-'}"

    # -- raw bytes

    def raw(self):
        """A message, most often of the table, and now and then a spoiled one."""
        kind, subtype, body = self.dice.choice(RAW)
        data = kind.to_bytes(2, "little") + subtype.to_bytes(2, "little") + len(body).to_bytes(4, "little") + body
        spoil = self.dice.randrange(24)
        if spoil == 0:
            data = data[:-1]
        elif spoil == 1:
            data += b"\0"
        elif spoil == 2:
            data = data[: self.dice.randrange(9)]
        elif spoil < 5:
            place = self.dice.randrange(min(len(data), 12))
            data = data[:place] + bytes([self.dice.randrange(6)]) + data[place + 1 :]
        return data


def rename_body(old, new, more=0):
    return (len(old) + more).to_bytes(2, "little") + old + new


def notify_body(conds, last, size):
    return bytes([conds, 1]) + bytes(size) + bytes([last])


# Conditions, and the last byte of the value.
NOTIFIED = [(1, 0), (2, 15), (3, 15), (0, 0), (4, 0), (3, 16)]

# Types, subtypes and bodies, of which some values are out of their ranges.
RAW = [
    *((256, 1, bytes([flags, 0, 0xC0, 1]) + rest) for flags, rest in [(1, b""), (6, b"a"), (4, b"a"), (0x80, b""), (1, b"a//b")]),
    *((256, subtype, rest) for subtype in (2, 3) for rest in [b"", b"a", b"a/b", b"/a", b"..", b"a" * 65, b"a\0"]),
    (256, 3, b"a/" * 512 + b"a"),
    *((256, 4, bytes([kind, 0, 0, mode]) + b"d") for kind, mode in [(2, 1), (1, 1), (2, 2)]),
    *((256, 5, rename_body(b"a", b"b", more)) for more in (0, 0, 1, 2)),
    *((257, 0, count.to_bytes(4, "little")) for count in (0, 1, 4_096, 4_097)),
    *((258, 0, bytes(length)) for length in (0, 1, 1, 4_096, 4_097, 4_160, 4_161)),
    (259, 0, b""),
    *((260, 0, bytes([coid, 0])) for coid in (2, 3, 66, 67)),
    *((261, subtype, by.to_bytes(8, "little", signed=True)) for subtype in range(4) for by in (0, -1)),
    (262, 0, b""),
    *((263, 0, name) for name in [b"", b"a", b".", b"a/b"]),
    *((264, 0, mode.to_bytes(2, "little")) for mode in (0o700, 0o777, 512)),
    *((265, subtype, notify_body(*conds_and_value, 3)) for subtype in range(4) for conds_and_value in NOTIFIED),
    *((266, subtype, notify_body(*conds_and_value, 7)) for subtype in range(4) for conds_and_value in NOTIFIED),
    (267, 0, b""),
    (999, 9, b"abc"),
]

# What a line becomes that is to be bad, and lines that are bad or stand where they may not.
SPOILED = [
    lambda line: line + " more",
    lambda line: line.rpartition(" ")[0],
    lambda line: line.replace(" ", " 0", 1),
    lambda line: line.replace("1", "01", 1),
    lambda line: line.replace("1", "300", 1),
    lambda line: line.upper(),
    lambda line: line + "\t",
    lambda line: " # " + line,
    lambda line: "   ",
    lambda line: "user ann",
    lambda line: "user Bad",
    lambda line: "user a2345678901234567",
    lambda line: "workers 2",
    lambda line: "workers 9",
    lambda line: "ceiling ann 256",
    lambda line: "disconnect ann 0",
    lambda line: "limit ann events 129",
    lambda line: "limit bob nothing 1",
    lambda line: "write ann.1.1 3 abc",
    lambda line: "open ann.1.1 /ann rr 000",
    lambda line: "open ann.1.1 /ann r 800",
    lambda line: "seek ann.1.1 3 set 9223372036854775808",
    lambda line: "notify ann.1.1 3 poll oi 1 1",
    lambda line: "notify ann.1.1 3 poll i 1 4294967296",
    lambda line: "mount ann.1.1 /ann/a disk",
    lambda line: "do 1 serve 1",
    lambda line: "show nobody",
    lambda line: "spawn ann 1 256",
    lambda line: "\n".join(f"user u{number}" for number in range(17)),
]


def spoiled(text, seed):
    """A script with bad lines at some places."""
    dice = random.Random(f"bad {seed}")
    lines = text.split("\n")
    for _ in range(dice.choice([1, 1, 1, 2, 3])):
        place = dice.randrange(len(lines))
        lines[place] = dice.choice(SPOILED)(lines[place])
    return "\n".join(lines)


def script(seed, steps, is_bad=False):
    """The script of a seed."""
    text = Chooser(seed, steps).script()
    return spoiled(text, seed) if is_bad else text


def main():
    words = [word for word in sys.argv[1:] if word != "--bad"]
    if len(words) != 2 or not all(word.isascii() and word.isdigit() for word in words):
        print("scripts: SEED STEPS [--bad], two numbers", file=sys.stderr)
        return 2
    sys.stdout.buffer.write(script(int(words[0]), int(words[1]), "--bad" in sys.argv).encode("latin-1"))
    return 0


if __name__ == "__main__":
    sys.exit(main())
