"""Reads the definitions and the code of a crate, as far as names, imports and clauses go."""
import re
from typing import Dict, Iterable, Iterator, List, NamedTuple, Set, Tuple

NAME = r"[^\W\d](?:[\w'-]*[\w'])?"
KEYWORDS = r"(?:(?:abbrev|unfoldable|pub|record|data)\s+)"
ITEM = (r"^( *)(pub(?:\(\w+\))? )?(?:const |unsafe )?"
        r"\b(fn|struct|enum|trait|const|type|impl|mod)\b ?(\w*)")
# a crate, then specs or src, then the names of modules and of what stands in them
Place = Tuple[str, ...]


class Unread(Exception):
    """What of a file, or of the words of the call, is not understood."""


def shown(place: Place) -> str:
    """A file as a page names it."""
    if place[1:2] != ("src",):
        return "/".join(place)
    return "/".join(place if place[2:] else (*place, "lib")) + ".rt"


class Part(NamedTuple):
    """A declaration: its file, what it declares, and its text."""

    file: Place
    names: Place
    text: str


class Call(NamedTuple):
    """A function: the type whose method it is, if any, and its head with its clauses."""

    name: str
    owner: str
    is_public: bool
    head: Part


class File:
    """What a file declares and imports, by name; what others may use of it; its functions."""

    def __init__(self, place: Place):
        self.place = place
        self.parts: Dict[str, List[Part]] = {}
        self.imports: Dict[str, List[Place]] = {}
        self.public: Set[str] = set()
        self.calls: List[Call] = []

    def add(self, names: Iterable[str], further: Iterable[str], text: str) -> None:
        """Keeps a declaration under what it declares, and under further names."""
        part = Part(self.place, tuple(names), text)
        for name in {*part.names, *further}:
            self.parts.setdefault(name.strip("◌"), []).append(part)

    def all_parts(self) -> Iterator[Part]:
        """All declarations."""
        return (part for parts in self.parts.values() for part in parts)

    def bring(self, module: Place, names: str) -> List[str]:
        """Keeps what a `use` imports from a module, and gives the names that it has here."""
        pairs = re.findall(r"([^\s,{}]+)(?:\s+as\s+([^\s,{}]+))?", names.replace("◌", ""))
        for name, other in pairs:
            self.imports.setdefault(other or name, []).append((*module, name))
        return [other or name for name, other in pairs]


def definitions_of(place: Place, text: str) -> File:
    """Reads a file of specs/."""
    file = File(place)
    text = re.sub(r'"(?:[^"\\\n]|\\.)*"|--.*|^infix.*', " ", text, flags=re.MULTILINE)
    use = re.compile(r"^(?:pub )?use ([\w.]+\w)(?:\.\{([^}]*)\}|( as \w+)?)[ ]*$", re.MULTILINE)
    for module, names, alias in use.findall(text):
        path = tuple(module.split("."))
        file.bring(*((path, names) if names else (path[:-1], path[-1] + alias)))
    begin = rf"^(?=(?:abbrev\s+)?mutual\b|{KEYWORDS}+\S|\S+ :\s)"
    before, *texts = re.split(begin, use.sub("", text), flags=re.MULTILINE)
    if before.strip():
        raise Unread(f"{shown(place)} begins with {before.strip()}")
    for text in texts:
        # a block of declarations that name one another is one declaration of all their names
        margin = "  " if re.match(r"(?:abbrev\s+)?mutual\b", text) else ""
        lines = text.split("\n")[1:] if margin else text.split("\n")
        heads = [re.match(rf"{margin}{KEYWORDS}*([^\s(){{}}\[\]]+)", line) for line in lines]
        names = list(dict.fromkeys(head[1] for head in heads if head and head[1] != "unfolding"))
        # the clauses of an operator begin with what stands before it
        names = names[:1] if "◌" in "".join(names[:1]) else names
        if len(names) != 1 and not (names and margin):
            raise Unread(f"{shown(place)} declares {' and '.join(names) or 'nothing'} in\n{text}")
        file.add(names, re.findall(rf"^ +({NAME}) :", text, re.MULTILINE), text)
    return file


def end_of(text: str, at: int, ends: str) -> int:
    """The place of the first of these characters that stands in no bracket."""
    depth = 0
    for place in range(at, len(text)):
        depth -= text[place] in ")]}"
        if depth <= 0 and text[place] in ends:
            return place
        depth += text[place] in "([{"
    return len(text)


def head_end(text: str, at: int) -> int:
    """The place of a function's end, or of its body's beginning: after its clauses."""
    at = end_of(text, at, "{;")
    while re.search(r"\b(requires|ensures)(\s+\w+)?\s*$", text[max(0, at - 99):at]):
        at = end_of(text, end_of(text, at, "}") + 1, "{;")
    return at


def owner_of(head: str) -> str:
    """The type of an `impl`, by its head."""
    before = ""
    while head != before:
        before, head = head, re.sub(r"<[^<>]*>", "", head)
    return re.findall(NAME, head.split(" for ")[-1].replace("impl", "", 1))[0]


def code_of(place: Place, text: str, crates: Set[str]) -> File:
    """Reads a file of src/."""
    file = File(place)
    text = re.sub(r'"(?:[^"\\]|\\.)*"|' r"'(?:[^'\\]|\\[^']+)'|//.*", " ", text)
    for kind, path in re.findall(r"(?:\b(pub|ghost) )?\buse ([^;]+);", text):
        head, _, names = path.partition("{")
        module = re.findall(r"\w+", head if names else head.partition(" as ")[0])
        names = names or head.split("::")[-1].split(".")[-1]
        module = module if "{" in path else module[:-1]
        if kind != "ghost":
            crate = module[:1] if module and module[0] in crates else place[:1]
            module = [*crate, "src", *(word for word in module if word not in (*crate, "crate"))]
        brought = file.bring(tuple(module), names)
        file.public.update(brought if kind == "pub" else [])
    owner = owner_head = ""
    for found in re.finditer(ITEM, text, re.MULTILINE):
        margin, public, kind, name = found.groups()
        file.public.update([name] if public == "pub " and not margin else [])
        if kind == "fn":
            head = text[found.start():head_end(text, found.end())]
            part = Part(place, (name,), owner_head + head if margin else head)
            file.calls.append(Call(name, owner if margin else "", public == "pub ", part))
        elif kind != "mod" and not margin:
            ends = {"const": ";", "type": ";", "struct": ";}"}.get(kind, "}")
            body = text[found.start():end_of(text, found.end(), ends)]
            owner_head = body.partition("{")[0]
            owner = owner_of(owner_head) if kind == "impl" else name
            if kind == "impl":
                # what it says of its type in the words of clauses
                ghosts = re.findall(r"^ +ghost \w+ = .*?;$", body, re.MULTILINE | re.DOTALL)
                file.add((), [f"impl {owner}"], "\n".join(ghosts))
            else:
                file.add([name], (), body)
    return file
