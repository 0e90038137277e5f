"""The record of the wrong bodies that were refused: a file of the repository, with a line for each.

A line is 'CRATE NAME SUM COMMIT WHY': SUM is of what the refusal is about, shortened, COMMIT that of the checkout where
it was tried last, and WHY the goal, its place and how it was refused. The lines stand in the order of crate and name. A
line is a claim of whoever wrote it: it holds as long as its sum is that of what stands in the repository, and whoever
doubts it tries the body again.
"""
import collections
import os
import re
import tempfile

DIGITS = 16
LINE = re.compile(rf"(\S+) (\S+) ([0-9a-f]{{{DIGITS}}}) (none|[0-9a-f]{{{DIGITS}}}) (\S.*)")
Line = collections.namedtuple("Line", "sum at why")


class Record:
    """The lines of a record, by crate and name, and what is at fault with it over the sums of the bodies that there
    are."""

    def __init__(self, path, sums):
        self.path, self.sums = path, {body: sum[:DIGITS] for body, sum in sums.items()}
        self.lines, self.faults, self.tried = {}, [], set()
        for number, line in enumerate(self.read(), 1):
            found = LINE.fullmatch(line)
            body = found and (found[1], found[2])
            if not found:
                self.fault(number, f"can't be read: {line[:80]}")
            elif body in self.lines:
                self.fault(number, f"is a second one of {' '.join(body)}")
            elif body not in self.sums:
                self.fault(number, f"is of {' '.join(body)}, and there is no such wrong body")
            else:
                self.lines[body] = Line(found[3], found[4], found[5])

    def read(self):
        """Its lines; none if there is no such file."""
        try:
            with open(self.path, encoding="utf-8", errors="replace", newline="\n") as it:
                text = it.read()
        except FileNotFoundError:
            return []
        return text.removesuffix("\n").split("\n") if text else []

    def fault(self, number, why):
        self.faults.append(f"{os.path.basename(self.path)}: line {number} {why}")

    def why(self, *body):
        """Why this body was refused, if its line has the sum of what stands in the repository."""
        line = self.lines.get(body)
        return line.why if line and line.sum == self.sums[body] else None

    def put(self, *body, at, why):
        """Has the record say why this body was refused, at that commit, or nothing of it if it wasn't."""
        self.tried.add(body)
        self.lines.pop(body, None)
        if why:
            self.lines[body] = Line(self.sums[body], at, " ".join(why.split()))

    def write(self):
        """Writes the lines that hold, in order; no other run meets half of them, and what a run that was cut off wrote
        stays whole.

        What another run wrote meanwhile stays, but for what this one came to.
        """
        others = {body: line for body, line in Record(self.path, self.sums).lines.items() if body not in self.tried}
        mine = {body: line for body, line in self.lines.items() if body in self.tried}
        self.lines = {**others, **mine}
        text = "".join(
            f"{' '.join(it)} {self.sums[it]} {self.lines[it].at} {why}\n"
            for it in sorted(self.lines)
            if (why := self.why(*it))
        )
        with tempfile.NamedTemporaryFile(
            "w", dir=os.path.dirname(self.path), prefix="refused-", delete=False, encoding="utf-8", newline="\n"
        ) as it:
            it.write(text)
        os.chmod(it.name, 0o644)
        os.replace(it.name, self.path)
