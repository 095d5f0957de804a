"""What a disk may hold after a power cut, from the calls that log_calls.c wrote down.
Assumes a file system that keeps a file's contents once fsync of it was answered, and names in their order once fsync of their folder was.
Before that, of what was written any first part may be there, and of the renames any first ones."""
import os


class Disk:
    """One file and the files beside it in its folder."""

    def __init__(self, file):
        self.file, self.folder = file, os.path.dirname(file)
        self.names = [{}]           # what the folder may hold after a cut, the last as it is now
        self.contents = []          # of each file, as it is now
        self.kept = []              # of each file, what it may hold after a cut
        self.open_files = {}        # by descriptor: a file's index, the folder, or another path

    def call(self, name, *words):
        getattr(self, f'do_{name}')(*words)

    def do_open(self, descriptor, truncated, path):
        if descriptor == '-1' or os.path.dirname(path) != self.folder:
            self.open_files[descriptor] = path
            return
        names = self.names[-1]
        if path not in names:
            self.contents.append(b'')
            self.kept.append({b''})
            self.names.append({**names, path: len(self.contents) - 1})
        elif truncated == '1':
            self.contents[names[path]] = b''
            self.kept[names[path]].add(b'')
        self.open_files[descriptor] = self.names[-1][path]

    def do_write(self, descriptor, hex_bytes=''):
        index = self.open_files.get(descriptor)
        if isinstance(index, int):
            before, added = self.contents[index], bytes.fromhex(hex_bytes)
            self.contents[index] = before + added
            self.kept[index] |= {before + added[:length] for length in range(len(added) + 1)}

    def do_fsync(self, descriptor):
        index = self.open_files.get(descriptor)
        if isinstance(index, int):
            self.kept[index] = {self.contents[index]}
        elif index == self.folder:
            self.names = self.names[-1:]

    def do_rename(self, source, target):
        names = dict(self.names[-1])
        names[target] = names.pop(source)
        self.names.append(names)

    def after_cut(self):
        """All that the file may hold; None where it may be missing."""
        return {content for names in self.names for content in (self.kept[names[self.file]] if self.file in names else {None})}
