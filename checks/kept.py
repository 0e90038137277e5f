"""What earlier runs of the checks came to on this machine, each by a sum of all that it rests on, so that it never goes
stale.

Nothing here is of the repository: a clone on another machine tries all.
"""
import hashlib
import json
import os
import re
import subprocess
import tempfile

FOLDER = os.path.join(os.environ.get("XDG_CACHE_HOME") or os.path.expanduser("~/.cache"), "calloop-checks")
PARTS = ("src", "specs", "proofs")
# A line that begins so is a comment.
COMMENTS = {".rt": b"//", ".antt": b"--"}


def crates_of(root, file="crates.txt"):
    """What crates.txt names at the top of a repository, or another such file of it: each crate with the names behind
    its own, lowest first."""
    with open(f"{root}/{file}", encoding="utf-8") as it:
        lines = [line.partition(":") for line in it if line.strip() and not line.startswith("#")]
    return {head.split()[0]: (head, rest.split()) for head, _, rest in lines}


def version():
    """What the kit calls itself."""
    return subprocess.run(["rt", "version"], stdout=subprocess.PIPE, check=True, text=True).stdout.strip()


def logic():
    """The kit's logic, by which it proves and refuses: builds of one kit that differ in their letter have the same."""
    said = version()
    found = re.search(r"\blogic \S+", said)
    return found[0] if found else said


class Kept:
    """The results of one script over the crates of a copy of the repository, whose files stay as they are meanwhile.

    By is what they rest on beside those files. It and the paths within the copy are all that goes into a sum, so that a
    sum is the same in each clone.
    """

    def __init__(self, root, *by):
        self.root, self.crates, self.sums, self.stated, self.by = root, crates_of(root), {}, {}, by

    def file(self, path):
        """A file of the copy, by its path there, with a sum of what it holds."""
        with open(f"{self.root}/{path}", "rb") as it:
            return repr((path, hashlib.sha256(it.read()).digest())).encode()

    def code(self, path):
        """The same without its lines of comments, and however it is laid out."""
        comment = COMMENTS.get(os.path.splitext(path)[1])
        with open(f"{self.root}/{path}", "rb") as it:
            words = [
                word
                for line in it.read().split(b"\n")
                if not (comment and line.lstrip().startswith(comment))
                for word in line.split()
            ]
        return repr((path, hashlib.sha256(b" ".join(words)).digest())).encode()

    def part(self, crate, part, seen=None):
        """The files of a folder of a crate, in order: all that they hold, or what is seen of them."""
        for at, folders, files in os.walk(f"{self.root}/crates/{crate}/{part}"):
            folders.sort()
            yield from ((seen or self.file)(os.path.relpath(f"{at}/{it}", self.root)) for it in sorted(files))

    def sum_of(self, crate):
        """The sum of a crate's files, of its line of crates.txt, and of those of the crates below it."""
        if crate not in self.sums:
            head, rest = self.crates[crate]
            found = [repr((head, rest)).encode(), *(self.sum_of(it) for it in rest if it in self.crates)]
            found += [it for part in PARTS for it in self.part(crate, part)]
            self.sums[crate] = hashlib.sha256(b"\n".join(found)).digest()
        return self.sums[crate]

    def sum_with(self, crate, tried):
        """The sum of what was tried in a crate and of all that it rests on, in hex digits."""
        return hashlib.sha256(repr((self.by, crate, self.sum_of(crate), tried)).encode()).hexdigest()

    def sum_about(self, crate, tried, files):
        """The sum of what was tried in a crate and of what that is about, in hex digits: these files of it, and its
        specs/, without comments and layout. It stays if proofs, other files, or crates below change."""
        if crate not in self.stated:
            self.stated[crate] = [*self.part(crate, "specs", self.code)]
        found = [
            self.code(f"crates/{crate}/{it}")
            for it in sorted(files)
            if os.path.isfile(f"{self.root}/crates/{crate}/{it}")
        ]
        return hashlib.sha256(repr((self.by, crate, self.stated[crate], found, tried)).encode()).hexdigest()

    def get(self, sum):
        """What was kept for this sum, or None."""
        try:
            with open(f"{FOLDER}/{sum}", encoding="utf-8") as it:
                return json.load(it)
        except (OSError, ValueError):
            return None

    def put(self, sum, said):
        """Keeps it for later runs, if it can be written; no run meets half of it."""
        try:
            os.makedirs(FOLDER, exist_ok=True)
            with tempfile.NamedTemporaryFile("w", dir=FOLDER, delete=False, encoding="utf-8") as it:
                json.dump(said, it)
            os.replace(it.name, f"{FOLDER}/{sum}")
        except OSError:
            pass
