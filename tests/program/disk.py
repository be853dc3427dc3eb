"""A folder on a file system that keeps no more than it has to, for power.py. After a power cut there is what was synced
last. Of what was written to a file since then, any part may be there too; of the changes of names in a folder since
then, the first few, none or all.
"""
import os
from pathlib import Path


class File:
    """Its bytes, and all that they may be after a power cut."""

    def __init__(self, text):
        self.text, self.may_be = text, {text}

    def put(self, at, piece):
        """Of a piece all may come to the disk, nothing, either half, or zeros in its place."""
        half = len(piece) // 2
        parts = (at, piece), (at, piece[:half]), (at + half, piece[half:]), (at, bytes(len(piece)))
        self.may_be |= {with_piece(text, *part) for text in self.may_be for part in parts}
        self.text = with_piece(self.text, at, piece)

    def empty(self):
        self.text = b""
        self.may_be.add(b"")

    def sync(self):
        self.may_be = {self.text}


def with_piece(text, at, piece):
    return text[:at].ljust(at, b"\0") + piece + text[at + len(piece):]


class Names(list):
    """The files of a folder by their names, in each state that a power cut may leave; the last is the present one."""

    def change(self, more, gone=None):
        self.append({name: file for name, file in (self[-1] | more).items() if name != gone})

    def sync(self):
        del self[:-1]


def texts_in(root):
    """The bytes of the files in a folder and in those below it, but for links."""
    return {folder: {name: Path(folder, name).read_bytes() for name in names if not Path(folder, name).is_symlink()}
            for folder, _, names in os.walk(root)}


class Disk:
    """A folder with those below it, as the calls that power.c has noted change it. A place is a folder and a name."""

    def __init__(self, root, register):
        self.root = root
        self.folders = {folder: Names([{name: File(text) for name, text in texts.items()}])
                        for folder, texts in texts_in(root).items()}
        self.register = self.place(os.path.realpath(os.path.join(root, register)))
        # By descriptor: a folder's names, or a file, its place and where the next write goes.
        self.opened = {}
        self.changed, self.saves, self.writes_in_place = set(), 0, 0

    def place(self, path):
        folder, name = os.path.split(os.path.join(self.root, os.fsdecode(path)))
        return os.path.realpath(folder), name

    def texts(self):
        return {folder: {name: file.text for name, file in names[-1].items()} for folder, names in self.folders.items()}

    def registers(self):
        """The files that may stand at the register's place, None for none."""
        folder, name = self.register
        return [names.get(name) for names in self.folders[folder]]

    def may_hold(self):
        """All that may stand at the register's place after a power cut."""
        return {text for file in self.registers() for text in (file.may_be if file else [None])}

    def alter(self, file, place):
        self.writes_in_place += file in self.registers()
        self.changed.add(place)

    def open(self, number, how, path):
        path = os.path.realpath(os.path.join(self.root, os.fsdecode(path)))
        folder, name = os.path.split(path)
        if path in self.folders:
            self.opened[number] = self.folders[path], None, 0
            return
        if name not in self.folders[folder][-1]:
            self.folders[folder].change({name: File(b"")})
            self.changed.add((folder, name))
        file = self.folders[folder][-1][name]
        self.opened[number] = file, (folder, name), 0
        if int(how) & os.O_TRUNC:
            self.alter(file, (folder, name))
            file.empty()

    def write(self, number, piece):
        file, place, at = self.opened[number]
        self.alter(file, place)
        file.put(at, piece)
        self.opened[number] = file, place, at + len(piece)

    def fsync(self, number):
        self.opened[number][0].sync()

    def rename(self, old, new):
        """Within a folder."""
        (folder, name), to = self.place(old), self.place(new)
        self.folders[folder].change({to[1]: self.folders[folder][-1][name]}, name)
        self.changed |= {(folder, name), to}
        self.saves += to == self.register

    def unlink(self, path):
        folder, name = self.place(path)
        self.folders[folder].change({}, name)
        self.changed.add((folder, name))
