"""The system calls of a program, as strace prints them (strace(1)): which files and names they
change, what they sync, and what is answered over connections."""
import collections
import os
import re

# The calls that are recorded: those that change files or names, that sync, and that write.
TRACED = (
    "openat,creat,mkdir,mkdirat,write,writev,pwrite64,pwritev,lseek,ftruncate,fallocate,fsync,"
    "fdatasync,rename,renameat,renameat2,unlink,unlinkat,rmdir,sendto,sendmsg"
)
LONGEST = 4_000_000  # bytes of a call that are printed
LINE = re.compile(r"(\d+) +(\d+\.\d+) (.*)", re.S)
RESUMED = re.compile(r"<\.\.\. (\w+) resumed>", re.S)
ENDED = re.compile(r"\) += (-?\d+)", re.S)
STRING = re.compile(r'"((?:[^"\\]|\\.)*)"', re.S)
LINK = re.compile(r"TCP:\[[\d.]+:(\d+)->[\d.]+:(\d+)\]")

# A call: its name and its words as printed, the places of its begin and of its end among the lines
# (the end is None where it has none), when it began, and its result.
Call = collections.namedtuple("Call", "name words begun ended moment result")


def words_for(log, inject=()):
    """The words that start a program under strace, which writes its calls into a file. Each of
    `inject` is a fault that a call has (strace(1), "Tampering")."""
    how = ["-f", "-ttt", "-yy", "--seccomp-bpf", "-s", str(LONGEST), "-e", f"trace={TRACED}"]
    return ["strace", *how, *(it for one in inject for it in ("-e", f"inject={one}")), "-o", log]


def bytes_of(text):
    """The bytes that a string of strace means, with its escapes."""
    return text.encode("latin-1").decode("unicode_escape").encode("latin-1")


def strings_of(words):
    """The strings among the words of a call, as bytes."""
    return [bytes_of(it) for it in STRING.findall(words)]


def result_of(text):
    """The words of a call, and its result: the last one that is printed."""
    found = [*ENDED.finditer(text[-400:])]
    if not found:
        return text, None
    at = max(len(text) - 400, 0) + found[-1].start()
    return text[:at], int(found[-1][1])


def calls_in(text, first=0):
    """The calls of a log, in the order of their begins. The first line has this number."""
    begun, found = {}, []
    for place, line in enumerate(text.split("\n"), first):
        parts = LINE.fullmatch(line)
        if not parts:
            continue
        pid, moment, rest = parts[1], float(parts[2]), parts[3]
        resumed = RESUMED.match(rest)
        if resumed:
            name, words, started, when = begun.pop(pid, (resumed[1], "", place, moment))
            words, result = result_of(words + rest[resumed.end() :])
            found.append(Call(name, words, started, place, when, result))
            continue
        name, is_call, words = rest.partition("(")
        if not is_call or not re.fullmatch(r"\w+", name):
            continue
        if words.endswith("<unfinished ...>"):
            begun[pid] = (name, words[: -len("<unfinished ...>")], place, moment)
            continue
        words, result = result_of(words)
        found.append(Call(name, words, place, place, moment, result))
    found += [Call(*it[:3], None, it[3], None) for it in begun.values()]
    return sorted(found, key=lambda it: it.begun)


class Change:
    """What a call changes: bytes of a file, its size, or a name in a folder.

    `of` is the node that is to be synced, so that a crash leaves it: a file, or the folder of the
    name. `safe` is the place of the end of that sync, or None."""

    def __init__(self, call, kind, of, *what):
        self.kind, self.of, self.what = kind, of, what
        self.begun, self.ended, self.safe, self.is_spoiled = call.begun, call.ended, None, False
        self.said = f"{call.name} of {what[0]}" if kind != "bytes" else f"{call.name}"

    def is_name(self):
        """Whether it changes a name."""
        return self.kind in ("made", "removed", "renamed")


class Open:
    """A file that a program has open."""

    def __init__(self, node, is_appending):
        self.node, self.is_appending, self.at = node, is_appending, 0


class Record:
    """What the calls of runs, one after another, change in a folder, and what they answer.

    A node is a number; the folder itself is 0. `names` has what a program sees."""

    def __init__(self, folder):
        self.folder = os.path.realpath(folder)
        self.names, self.sizes, self.files, self.kinds = {".": 0}, {}, {}, {0: "folder"}
        self.changes, self.answers, self.syncs, self.moments = [], [], [], {}
        self.lines = 0

    def add(self, text, port):
        """Adds the calls of a run that listened at a port."""
        self.files = {}
        for call in calls_in(text, self.lines):
            self.moments[call.begun] = call.moment
            self.take(call, port)
        self.lines += text.count("\n") + 1

    def take(self, call, port):
        """Adds a call."""
        link = LINK.search(call.words[:200])
        if link and call.name in ("sendto", "sendmsg", "write", "writev"):
            if int(link[1]) == port:
                said = b"".join(strings_of(call.words)[:1])
                self.answers.append((call.begun, int(link[2]), said[:12]))
            return
        if call.result is None or call.result < 0:
            if call.name in ("fsync", "fdatasync"):
                self.sync(call)
            return
        kept = {
            "openat": self.open, "creat": self.open, "mkdir": self.make_folder,
            "mkdirat": self.make_folder, "write": self.write, "writev": self.write,
            "pwrite64": self.write, "pwritev": self.write, "lseek": self.seek,
            "ftruncate": self.cut, "fallocate": self.grow, "fsync": self.sync,
            "fdatasync": self.sync, "rename": self.rename, "renameat": self.rename,
            "renameat2": self.rename, "unlink": self.remove, "unlinkat": self.remove,
            "rmdir": self.remove,
        }
        if call.name in kept:
            kept[call.name](call)

    def path_in(self, text):
        """A path below the folder, by the one that a call names, or None."""
        path = os.path.relpath(os.path.realpath(os.fsdecode(text)), self.folder)
        return None if path.startswith("..") else path

    def change(self, call, kind, of, *what):
        """Notes a change."""
        self.changes.append(Change(call, kind, of, *what))

    def node_for(self, call, path, kind):
        """A new node with a name."""
        node = len(self.kinds)
        self.kinds[node], self.names[path] = kind, node
        self.sizes[node] = 0
        self.change(call, "made", self.names[os.path.dirname(path) or "."], path, node)
        return node

    def open(self, call):
        """A file is opened, or made."""
        path = self.path_in(strings_of(call.words)[0])
        self.files.pop(call.result, None)
        if path is None:
            return
        if path not in self.names:
            self.node_for(call, path, "file")
        node, flags = self.names[path], call.words
        if ("O_TRUNC" in flags or call.name == "creat") and self.sizes.get(node):
            self.change(call, "size", node, 0)
            self.sizes[node] = 0
        self.files[call.result] = Open(node, "O_APPEND" in flags)

    def opened(self, call):
        """The file of a call whose first word is its number, if it is in the folder."""
        return self.files.get(int(re.match(r"\d+", call.words)[0]))

    def make_folder(self, call):
        """A folder is made."""
        path = self.path_in(strings_of(call.words)[-1])
        if path is not None:
            self.node_for(call, path, "folder")

    def write(self, call):
        """Bytes are written: at the end, at a place, or where the file is."""
        file = self.opened(call)
        if not file:
            return
        data = b"".join(strings_of(re.sub(r"^\d+<[^>]*>", "", call.words)))[: call.result]
        at = self.sizes[file.node] if file.is_appending else file.at
        if call.name.startswith("pwrite"):
            at = int(call.words.rpartition(",")[2])
        else:
            file.at = at + len(data)
        self.change(call, "bytes", file.node, at, data)
        self.sizes[file.node] = max(self.sizes[file.node], at + len(data))

    def seek(self, call):
        """A file goes to a place."""
        file = self.opened(call)
        if file:
            file.at = call.result

    def cut(self, call):
        """A file gets a size."""
        file = self.opened(call)
        if file:
            size = int(call.words.rpartition(",")[2])
            self.change(call, "size", file.node, size)
            self.sizes[file.node] = size

    def grow(self, call):
        """A file gets room, and more bytes, unless its size is kept."""
        file = self.opened(call)
        if file and "KEEP_SIZE" not in call.words:
            start, count = (int(it) for it in call.words.split(",")[-2:])
            size = max(self.sizes[file.node], start + count)
            self.change(call, "size", file.node, size)
            self.sizes[file.node] = size

    def sync(self, call):
        """What was changed of a file or a folder before this call is safe after it. After one that
        fails it is never known to be (fsync(2), "Errors")."""
        file = self.opened(call)
        if not file or call.ended is None:
            return
        self.syncs.append(call.ended)
        for it in self.changes:
            if it.of == file.node and it.ended is not None and it.ended <= call.begun:
                if call.result == 0 and it.safe is None and not it.is_spoiled:
                    it.safe = call.ended
                it.is_spoiled = it.is_spoiled or it.safe is None

    def rename(self, call):
        """A name is changed."""
        old, new = (self.path_in(it) for it in strings_of(call.words))
        if old in self.names and new is not None:
            node = self.names.pop(old)
            self.names[new] = node
            self.change(call, "renamed", self.names[os.path.dirname(new) or "."], old, new, node)

    def remove(self, call):
        """A name is removed."""
        path = self.path_in(strings_of(call.words)[-1])
        if path in self.names:
            del self.names[path]
            self.change(call, "removed", self.names[os.path.dirname(path) or "."], path)

    def places(self):
        """The places of the log at which a crash is tried."""
        places = {it.begun for it in self.changes} | {it[0] for it in self.answers}
        return sorted(places | {*self.syncs})

    def moment_of(self, place):
        """When the last call before a place began."""
        while place not in self.moments and place > 0:
            place -= 1
        return self.moments.get(place, 0)


def tree_of(record, changes, torn=None):
    """The files and folders that these changes leave, in their order: each path with its bytes, or
    None for a folder. Of one change's bytes there may be some alone, as `torn` says: the change,
    how many of them, and how many zeros after these."""
    names, data = {}, collections.defaultdict(bytearray)
    for it in changes:
        if it.kind == "made":
            names[it.what[0]] = it.what[1]
        elif it.kind == "removed":
            names.pop(it.what[0], None)
        elif it.kind == "renamed":
            names.pop(it.what[0], None)
            names[it.what[1]] = it.what[2]
        elif it.kind == "size":
            size, file = it.what[0], data[it.of]
            file[:] = file[:size] + bytes(max(size - len(file), 0))
        else:
            at, more = it.what
            if torn and torn[0] is it:
                more = more[: torn[1]] + bytes(torn[2])
            file = data[it.of]
            file += bytes(max(at - len(file), 0))
            file[at : at + len(more)] = more
    tree = {}
    for path in sorted(names):
        above, node = os.path.dirname(path), names[path]
        if not above or above in tree:
            tree[path] = bytes(data[node]) if record.kinds[node] == "file" else None
    return tree
