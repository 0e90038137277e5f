"""The functions of a source file in the layout of rt fmt, and the lines on which they stand."""
import collections
import re

HEAD_OF_FUNCTION = re.compile(r"( *)(?:pub(?:\([^)]*\))? )?(?:(?:const|unsafe) )*fn (\w+)")
HEAD_OF_TRAIT = re.compile(r"(?:pub(?:\([^)]*\))? )?trait (\w+)")
HEAD_OF_TYPE = re.compile(r"(?:pub(?:\([^)]*\))? )?(?:struct|enum) (\w+)")
NAME = re.compile(r"'?[A-Za-z_][\w:]*")

# Of `file`, its lines from `first` to `last`, counted from 1: one function, or one line outside of functions, and then
# `name` is None. `of` is the name of its impl's type, `trait` that of its trait, and `by` those of the trait's types,
# without parameters of the impl. Of a function of a trait itself `of` is the trait's name, and `trait` is empty.
# Without a trait, `by` has the types for which alone the impl is: `+Core+R` of `impl<R> End<Core, R>`.
Place = collections.namedtuple("Place", "file first last name of trait by")


class Source:
    """A source file, and the functions in it."""

    def __init__(self, file, text):
        self.file, self.lines, self.functions = file, text.split("\n"), []
        of = trait = by = None
        for at, line in enumerate(self.lines):
            head = HEAD_OF_FUNCTION.match(line)
            if re.match(r"impl\b", line):
                of, trait, by = parts_of_impl(self.head(at))
            elif HEAD_OF_TRAIT.match(line):
                of, trait, by = HEAD_OF_TRAIT.match(line)[1], "", ""
            elif line == "}":
                of = trait = by = None
            if head:
                self.functions.append(
                    Place(file, self.begin(at) + 1, self.end(at, head[1]) + 1, head[2], of, trait, by)
                )

    def head(self, first):
        """What stands from an `impl` on to the brace that opens it, in one line."""
        head = self.lines[first]
        if head.startswith("impl"):
            for line in self.lines[first + 1 :]:
                if head.endswith("{"):
                    break
                head += " " + line.strip()
        return head

    def begin(self, head):
        """The line of the first attribute above the head of a function, or that of the head."""
        while head and self.lines[head - 1].lstrip().startswith("#["):
            head -= 1
        return head

    def end(self, first, indent):
        """The line that closes the function which begins at this one: the first of the same indent that ends it."""
        for at in range(first, len(self.lines)):
            line = self.lines[at]
            is_head = line.startswith(indent) and line[len(indent) : len(indent) + 1].strip()
            if line == indent + "}" or is_head and line.endswith(";") or at == first and line.endswith("}"):
                return at
        return len(self.lines) - 1

    def has_type(self, name):
        """Whether a struct or an enum of this name stands in it."""
        return any(HEAD_OF_TYPE.match(it) and HEAD_OF_TYPE.match(it)[1] == name for it in self.lines)

    def place(self, line):
        """The innermost function around a line, or that line alone."""
        around = [it for it in self.functions if it.first <= line <= it.last]
        return around[-1] if around else Place(self.file, line, line, None, None, None, None)

    def again(self, place, name=None):
        """The function that a place of another text of this file is of, or the one of this name beside it."""
        name = name or place.name
        of_it = (name, place.of, place.trait, place.by)
        return next((it for it in self.functions if (it.name, it.of, it.trait, it.by) == of_it), None)


def brackets(text):
    """What stands in the brackets that a text begins with, and what comes behind these."""
    depth = 0
    for at, letter in enumerate(text):
        depth += (letter == "<") - (letter == ">" and text[at - 1] != "-")
        if depth == 0:
            return text[1:at], text[at + 1 :] if letter == ">" else text
    return text, ""


def parts_of_impl(head):
    """Of the head of an impl the name of its type, that of its trait, if it is of one, and those of the trait's
    types."""
    parameters, rest = brackets(head.removeprefix("impl"))
    own = set(re.findall(r"(?:^|, )(?:const )?('?\w+)", re.sub(r"<.*?>", "", parameters)))
    trait = NAME.match(rest.lstrip())
    types, behind = brackets(rest.lstrip()[trait.end() :])
    if not behind.lstrip().startswith("for "):
        named = NAME.findall(types)
        by = (
            "".join(f"+{in_one_word(it)}" for it in named)
            if any(it not in own and not it.startswith("'") for it in named)
            else None
        )
        return in_one_word(trait[0]), None, by
    of = NAME.match(behind.lstrip().removeprefix("for "))
    named = [it for it in NAME.findall(types) if it not in own and not it.startswith("'")]
    return in_one_word(of[0]) if of else None, trait[0].split("::")[-1], "".join(map(in_one_word, named))


def in_one_word(path):
    """The checker's name of a type: `IoError` for `io::Error`."""
    return "".join(it[:1].upper() + it[1:] for it in path.split("::"))
