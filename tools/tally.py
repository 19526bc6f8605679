"""What the steps of a run came to, told in pairs of words, and which pairs have to come in many random scripts.

`played` plays a script in the model and returns the pairs that came. `EXPECTED` has those that have to come.
"""

from collections import Counter

from model import KIND_WORDS, MANAGERS, Player, read_script

CONDITION_WORDS = ["nothing", "input", "output", "both"]


def table(text):
    """The pairs of a table, each line of which has first words, a colon, and second words with commas between them."""
    pairs = set()
    for line in text.strip().splitlines():
        firsts, seconds = line.split(": ")
        pairs |= {(first.strip(), second.strip()) for first in firsts.split(",") for second in seconds.split(",")}
    return pairs


# A step's refusals, and all other outcomes.
OUTCOMES = table("""
spawn: EINVAL, EPERM, EAGAIN
prio: EINVAL, EPERM
mount: EINVAL, ENAMETOOLONG, EACCES, EEXIST, ENOSPC
open: EINVAL, ENAMETOOLONG, EACCES, ENOENT, EMFILE, EAGAIN
stat, unlink, mkdir: EINVAL, ENAMETOOLONG, EACCES, ENOENT, EAGAIN
rename: EINVAL, ENAMETOOLONG, EACCES, ENOENT, EAGAIN, EXDEV
read, write, list, notify, notify64: EINVAL, EBADF
raw: EINVAL
raw, close, seek, fstat, chmod: EBADF
dup: EBADF, EMFILE
spawn, exit, prio, mount, interrupt, reply, pulse: wrongstate
spawn: spawned
exit, prio, mount, interrupt: done
open, stat, unlink, mkdir, rename, read, write, close, dup, seek, fstat, list, chmod, notify, notify64, raw: sent, wrongstate
reply: reply, reply with bytes, error
pulse: nopulse, of input, of output, of both, of input in a wide value, of output in a wide value, of both in a wide value
receive: wrongstate, busy, idle, message, unblock, disconnect
perform: wrongstate, nothing, handled
""") - {("spawn", "wrongstate")}

# What messages are answered, by manager and kind. What is raw may come the wrong way, which is EINVAL.
ANSWERS = table("""
ram malformed, pipe malformed, device malformed: EINVAL
ram unknown, pipe unknown, device unknown, pipe mknod, device mknod, pipe rename, device rename: ENOSYS
ram open: done, EINVAL, ENOENT, ENOTDIR, EACCES, EEXIST, EISDIR, ENFILE, ENOSPC
ram stat: of a file, of a directory, EINVAL, ENOENT, ENOTDIR, EACCES
ram unlink: done, EINVAL, EBUSY, ENOENT, ENOTDIR, EACCES, ENOTEMPTY
ram mknod: done, EINVAL, EEXIST, ENOENT, ENOTDIR, EACCES, ENOSPC
ram rename: done, EINVAL, EBUSY, ENOENT, ENOTDIR, EACCES, EISDIR, ENOTEMPTY
ram read: something, nothing, EBADF, EISDIR
ram write: something, nothing, EBADF, EFBIG, ENOSPC
ram close, pipe close, device close: done, leaves the block, EBADF
ram dup, pipe dup, device dup: done, EINVAL, EBADF
ram lseek: done, EINVAL, EBADF
ram fstat: of a file, of a directory, of no name, EBADF
ram list, pipe list, device list: something, nothing, ENOTDIR, EBADF
ram chmod: done, EPERM, EBADF
pipe chmod, device chmod: done, EBADF
ram poll, ram pollarm: of input, of output, of both, EBADF
ram tranarm, pipe tranarm, device tranarm: of nothing, EBADF, EAGAIN
pipe poll, device poll: of nothing, of input, of output, of both, EBADF
pipe pollarm, device pollarm: of nothing, of input, of output, of both, EBADF, EAGAIN
pipe open, device open: done, EINVAL, ENOENT, ENOTDIR, EACCES, EEXIST, EISDIR, ENFILE, ENOSPC
pipe stat: of a pipe, of a directory, EINVAL, ENOENT, ENOTDIR, EACCES
device stat: of a device, of a directory, EINVAL, ENOENT, ENOTDIR, EACCES
pipe unlink, device unlink: done, EINVAL, EBUSY, ENOENT, ENOTDIR, EACCES
pipe read: something, nothing, waits, EBADF, EISDIR, EAGAIN, EINTR
pipe write: something, nothing, waits, EBADF, EPIPE, EAGAIN, EINTR
pipe lseek, device lseek: ESPIPE, EINVAL, EBADF
pipe fstat: of a pipe, of a directory, of no name, EBADF
device fstat: of a device, of a directory, of no name, EBADF
device read: EBADF, EISDIR
device write: EBADF
latch read: something, nothing, waits, EBADF, EAGAIN, EINTR
latch write: something, nothing, EBADF
mailbox read: something, nothing, waits, EBADF, EAGAIN, EINTR
mailbox write: something, waits, EBADF, EAGAIN, EINTR, EINVAL
pump read: something, nothing, EBADF
pump write: something, EBADF, EINVAL, EBUSY
waited: read something, read nothing, wrote something, EBADF, EPIPE, EINTR, EINVAL
""")

# What else comes of steps: of paths, pulses, server connections, events and exits.
OTHERS = table("""
root of, below: the top, a ram mount, a pipe mount, a device mount
mounted: ram, pipe, latch, mailbox, pump
interrupted: nothing waits, in a line, received, asked already, waiting, asked already while waiting
unblock finds: its call received, its call waiting, an answer, a later call in a line, a later call received, a later call waiting
disconnect finds: another in use, none in use
before a disconnect: message, unblock, disconnect
due: pipe read, pipe write, pipe close, device read, device write, disconnect, several, nobody hears
leaves: open, dup, stat, unlink, mknod, rename, close, interrupt, exit
ended: nothing, an answer, in a line, received, its pulse in a line while received, its pulse held while received
ended: waiting, its pulse in a line while waiting, its pulse held while waiting
ended: a block, a block of several connections, an armed event, a pulse to take, a server connection left before, several managers
of an ended process: message, unblock, unblock of a call that waits, disconnect, disconnect with blocks
of an ended process: call, reply, pulse, prio, interrupt, mount, exit
cleans: pipe read, pipe write, pipe close, device read, device write, device close, unblock, disconnect
a disconnect answers: read nothing, wrote something, EPIPE
frees a process: exit, message, unblock, disconnect
counts of ended processes: spawn EAGAIN, call EAGAIN, ENFILE, EAGAIN
started: past an ended process, under a number again
""")

EXPECTED = OUTCOMES | ANSWERS | OTHERS


def manager_word(manager):
    return MANAGERS[manager] if manager < 2 else "device"


def kind_word(sent, device=None):
    """A message with its manager: of a notification its action, and of a device's read and write the device."""
    kind = getattr(sent.message, "action", sent.message.kind)
    return f"{device if device and kind in ('read', 'write') else manager_word(sent.manager)} {kind}"


def calls_that_wait(user):
    return [call for inode in user.inodes.values() for call in inode.readers + inode.writers]


def waited_word(answer):
    """How a call that waited was answered."""
    word, *rest = answer.split()
    if word == "error":
        return rest[0]
    return "read nothing" if rest[0] == "0" else "wrote something" if rest[1] == "-" else "read something"


class Counts:
    """What is counted of a user before and after a step."""

    def __init__(self, user):
        processes = user.processes.values()
        self.pulses = sum(len(process.pulses) for process in processes)
        self.left = sum(not used for process in processes for servers in process.servers for used in servers.values())
        self.ended = sum(process.has_ended for process in processes)
        self.unheard = sum(event.process.has_ended for event in user.events)
        self.gone = sum(call.thread.process.has_ended for call in calls_that_wait(user))


class Look:
    """What is looked at before a step; `pairs` tells what came of it."""

    def __init__(self, world, step):
        self.world, self.step = world, step
        owner = world.owner(step)
        self.user = world.users[owner] if owner else None
        self.counts = Counts(self.user) if owner else None
        self.waiting = [call.thread for call in calls_that_wait(self.user)] if owner else []
        self.pairs = set()
        self.item = world.hands.get(step.values[0]) if step.word == "perform" else None
        self.sent = self.device = self.inode = None
        self.is_shared = False
        if self.item:
            self.look_at_item()
        elif step.word not in ("receive", "perform"):
            self.look_at_process()

    # -- before

    def look_at_item(self):
        item = self.item
        if item.process.has_ended:
            self.pairs.add(("of an ended process", self.late_word()))
        if item.kind == "message" and not item.process.has_ended:
            self.look_at_message(item.thread.sent)
        elif item.kind == "unblock":
            found = self.found_word()
            self.pairs |= {("unblock finds", found)} if found else set()
        elif item.kind == "disconnect":
            used = item.process.server_in_use(item.manager)
            self.pairs.add(("disconnect finds", "another in use" if used else "none in use"))

    def look_at_message(self, sent):
        self.sent = sent
        connection = self.item.process.connections.get(sent.coid)
        block = self.user.blocks.get(connection.block) if connection else None
        if block:
            self.inode = self.user.inodes[block.inode]
            self.device = self.inode.device
            self.is_shared = block.uses > 1
        if sent.root is not None:
            mount = "the top" if sent.root == 1 else f"a {manager_word(sent.manager)} mount"
            self.pairs.add(("below" if sent.message.rest else "root of", mount))

    def late_word(self):
        item = self.item
        if item.kind == "unblock" and item.thread in self.waiting:
            return "unblock of a call that waits"
        client = (item.process, item.manager, item.server)
        blocks = [block for block in self.user.blocks.values() if (block.process, block.manager, block.server) == client]
        return "disconnect with blocks" if item.kind == "disconnect" and blocks else item.kind

    def found_word(self):
        """What an unblock pulse finds its thread doing."""
        thread = self.item.thread
        if thread.process.has_ended:
            return None
        if thread.state in ("ready", "answered"):
            return "an answer"
        places = {"queued": "in a line", "taken": "received", "waiting": "waiting"}
        return f"{'its' if thread.calls == self.item.call else 'a later'} call {places[thread.state]}"

    def look_at_process(self):
        step = self.step
        if step.word == "spawn":
            return
        process = self.user.processes.get(step.values[0][1])
        if process is None:
            return
        if process.has_ended:
            self.pairs.add(("of an ended process", step.word))
        elif step.word == "exit":
            self.look_at_exit(process)
        elif step.word == "interrupt":
            thread = process.threads.get(step.values[0][2])
            self.pairs |= {("interrupted", self.interrupted_word(thread))} if thread else set()

    def interrupted_word(self, thread):
        if thread.state in ("ready", "answered"):
            return "nothing waits"
        if thread.state == "queued":
            return "in a line"
        words = {"taken": ("received", "asked already"), "waiting": ("waiting", "asked already while waiting")}
        return words[thread.state][thread.sent.is_asked]

    def look_at_exit(self, process):
        user = self.user
        blocks = [block for block in user.blocks.values() if block.process is process]
        found = {
            "a block": blocks,
            "a block of several connections": any(block.uses > 1 for block in blocks),
            "an armed event": any(event.process is process for event in user.events),
            "a pulse to take": process.pulses,
            "a server connection left before": any(not used for servers in process.servers for used in servers.values()),
            "several managers": sum(any(servers.values()) for servers in process.servers) > 1,
        }
        self.pairs |= {("ended", word) for word, holds in found.items() if holds}
        self.pairs |= {("ended", self.ended_word(thread)) for thread in process.threads.values()}

    def ended_word(self, thread):
        words = {"ready": "nothing", "answered": "an answer", "queued": "in a line", "taken": "received", "waiting": "waiting"}
        word = words[thread.state]
        if thread.state not in ("taken", "waiting") or not thread.sent.is_asked:
            return word
        held = [item for item in self.world.hands.values() if item and item.kind == "unblock" and item.thread is thread]
        return f"its pulse {'held' if any(it.call == thread.calls for it in held) else 'in a line'} while {word}"

    # -- after

    def came(self, outcome):
        """The pairs of a step that was taken."""
        self.add_outcome(outcome.split())
        if self.sent:
            self.add_answer()
        if self.user:
            self.add_counts(Counts(self.user), outcome)
        return self.pairs

    def add_outcome(self, words):
        step = self.step
        word = step.text.split()[0]
        told = words[0]
        if told == "refused":
            told = words[1]
        elif told == "took":
            told = words[2]
            if any(item.kind == "disconnect" for item in self.world.lines[step.values[1]]):
                self.pairs.add(("before a disconnect", told))
        elif told == "reply" and words[2] != "-":
            told = "reply with bytes"
        elif told == "pulse":
            value = int(words[2])
            told = f"of {CONDITION_WORDS[(value >> 60 or value >> 28) & 3]}{' in a wide value' if value >> 60 else ''}"
        self.pairs.add((word, told))
        if step.word == "mount" and told == "done":
            self.pairs.add(("mounted", MANAGERS[step.values[2]]))
        if told == "spawned":
            self.add_spawned(int(words[1]))

    def add_spawned(self, number):
        others = self.user.processes.values()
        if any(process.has_ended and process.number < number for process in others):
            self.pairs.add(("started", "past an ended process"))
        if any(process.number > number for process in others):
            self.pairs.add(("started", "under a number again"))

    def add_answer(self):
        thread = self.item.thread
        word = kind_word(self.sent, self.device)
        told = self.answer_word(thread)
        self.pairs.add((word, told))
        if told in ("ENFILE", "EAGAIN") and not self.device and (told == "ENFILE" or "arm" in word):
            rows = [*self.user.blocks.values(), *self.user.events]
            if any(row.process.has_ended for row in rows):
                self.pairs.add(("counts of ended processes", told))

    def answer_word(self, thread):
        if thread.state == "waiting":
            return "waits"
        word, status, *data = thread.answer.split()
        kind = self.sent.message.kind
        if word == "error":
            return status
        if kind in ("read", "write", "list"):
            return "nothing" if status == "0" else "something"
        if kind in ("stat", "fstat"):
            data = bytes.fromhex(data[0])
            return f"of a {KIND_WORDS[data[4]]}" if data[8] else "of no name"
        if kind == "notify":
            return f"of {CONDITION_WORDS[int(status)]}"
        return "leaves the block" if kind == "close" and self.is_shared else "done"

    def step_word(self):
        """A step in a word or two: of a perform what was done."""
        if self.sent:
            return f"{manager_word(self.sent.manager)} {self.sent.message.kind}"
        return self.item.kind if self.item else self.step.word

    def add_counts(self, after, outcome):
        before, word, pairs = self.counts, self.step_word(), self.pairs
        due = after.pulses - before.pulses
        if due > 0:
            pairs.add(("due", word if due == 1 else "several"))
        if after.unheard < before.unheard and self.sent:
            pairs.add(("due", "nobody hears"))
        if after.left > before.left:
            pairs.add(("leaves", word.split()[-1]))
        if after.gone < before.gone:
            pairs.add(("cleans", word))
        if after.ended < before.ended or self.step.word == "exit" and outcome == "done" and after.ended == before.ended:
            pairs.add(("frees a process", "message" if self.item and self.item.kind == "message" else word))
        if outcome == "refused EAGAIN" and before.ended:
            pairs.add(("counts of ended processes", f"{self.step.word} EAGAIN"))
        own = self.item.thread if self.item and self.item.kind == "message" else None
        for thread in self.waiting:
            if thread.state == "answered" and thread is not own:
                self.pairs.add(("waited", waited_word(thread.answer)))
                if word == "disconnect":
                    self.pairs.add(("a disconnect answers", waited_word(thread.answer)))


def played(text):
    """Plays a good script in the model, and counts the pairs that came."""
    came = Counter()
    configuration, lines = read_script(text)
    player = Player(configuration)
    take = player.world.take

    def watched(step):
        look = Look(player.world, step)
        outcome = take(step)
        came.update(look.came(outcome))
        return outcome

    player.world.take = watched
    for line in lines:
        player.play(line)
    return came
