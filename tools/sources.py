"""Reads the public items of the crates, for `tools/pages` and `tools/trusted`. It knows the layout that `rt fmt` gives, and no more."""
import re
from pathlib import Path

WORD = re.compile(r"\w+")


def balanced(text, at):
    """The place behind the bracket that closes the one at `at`."""
    pairs = {"(": ")", "<": ">", "[": "]", "{": "}"}
    stack = []
    while at < len(text):
        sign = text[at]
        if sign in "([{" or (sign == "<" and text[at - 1] != "-"):
            stack.append(pairs[sign])
        elif stack and sign == stack[-1] and not (sign == ">" and text[at - 1] in "-="):
            stack.pop()
            if not stack:
                return at + 1
        at += 1
    return at


def squeezed(text):
    """Without line breaks and doubled spaces, and without the comma before a closing bracket."""
    text = re.sub(r"//[^\n]*", " ", text)
    text = re.sub(r"\s+", " ", text).strip()
    text = re.sub(r"([(<\[]) ", r"\1", text)
    return re.sub(r",? ([)>\]])", r"\1", text)


def signature(text, at):
    """The signature that begins at `at`, a `fn`: its name, generics, parameters and result."""
    name = WORD.search(text, at + 3)
    here = name.end()
    generics = ""
    if text[here] == "<":
        end = balanced(text, here)
        generics, here = text[here:end], end
    end = balanced(text, here)
    parameters, here = text[here:end], end
    result = ""
    if text.startswith(" -> ", here):
        here += 4
        end = here
        while end < len(text):
            if text[end] in "([<":
                end = balanced(text, end)
            elif text[end] in ";{" or re.match(r"\s+(requires|ensures|where|\{)", text[end:]):
                break
            else:
                end += 1
        result = text[here:end]
    return name.group(0), squeezed(generics), squeezed(parameters), squeezed(result)


class Crate:
    """The items of a crate: functions by (type or none, name), types with their variants or fields."""

    def __init__(self, root, name):
        self.name = name
        self.folder = root / "crates" / name
        self.functions = {}
        self.types = {}
        self.consts = set()
        self.aliases = {}
        for path in sorted(self.folder.glob("src/**/*.rt")):
            self.read(path.read_text(encoding="utf-8"))

    def read(self, text):
        owner = None
        offset = 0
        for line in text.splitlines(keepends=True):
            at, offset = offset, offset + len(line)
            head = re.match(r"(unsafe )?impl\b", line)
            if head:
                owner = self.owner(text, at + head.end())
            elif re.match(r"pub (\w+ )*(trait) (\w+)", line):
                owner = re.match(r"pub (\w+ )*trait (\w+)", line).group(2)
                self.types.setdefault(owner, ("trait", []))
            elif line.startswith("}"):
                owner = None
            found = re.match(r"(\s*)(pub(\(crate\))? )?(const )?fn \w+", line)
            if found:
                kind = owner if found.group(1) else None
                public = bool(found.group(2)) and not found.group(3) or (owner is not None and not found.group(2))
                item = signature(text, text.index("fn ", at))
                self.functions.setdefault((kind, item[0]), []).append((public,) + item)
            found = re.match(r"pub (struct|enum|type) (\w+)", line)
            if found:
                self.types[found.group(2)] = (found.group(1), self.members(text, at, found.group(1)))
            found = re.match(r"pub type (\w+)(?:<[^>]*>)? = (\w+)<", line)
            if found:
                self.aliases[found.group(1)] = found.group(2)
            found = re.match(r"pub const (\w+)", line)
            if found:
                self.consts.add(found.group(1))

    @staticmethod
    def owner(text, at):
        """The type of an `impl`: what stands behind `for`, if anything does."""
        if text[at] == "<":
            at = balanced(text, at)
        head = text[at:text.index("{", at)]
        head = head.split(" for ")[-1]
        return WORD.search(head).group(0)

    @staticmethod
    def members(text, at, kind):
        if kind == "type":
            return []
        open_at = min(p for p in (text.find("{", at), text.find(";", at), len(text)) if p >= 0)
        if text[open_at:open_at + 1] != "{":
            return []
        body = text[open_at + 1:balanced(text, open_at) - 1]
        if kind == "enum":
            return re.findall(r"^    (\w+)(?=[,({ ]|$)", re.sub(r"^\s*(///|#\[|//).*$", "", body, flags=re.M), flags=re.M)
        return re.findall(r"^    pub (\w+): ([^\n]+),$", body, flags=re.M)

    def edits(self):
        return sorted(it.stem for it in self.folder.glob("must-fail/*.edit"))

    def mutants(self):
        """The edits that the gate leaves out."""
        return sorted(it.stem for it in self.folder.glob("mutants/*.edit"))


def workspace(root):
    """The names of the crates in the order of the layers, each with the libraries that it uses."""
    crates = {}
    for line in (root / "crates.txt").read_text(encoding="utf-8").splitlines():
        line = line.split("#")[0].strip()
        if line:
            name, _, uses = line.partition(":")
            crates[name.split()[0]] = uses.split()
    return crates


def root():
    return Path(__file__).resolve().parent.parent
