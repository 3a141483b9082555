"""The items of a Rust source, and its declarations as a Rattle source."""
import re

HEAD = re.compile(
    r"(?:pub\b(?:\s*\([^)]*\))?\s*)?(?:unsafe\s+)?"
    r"(struct|enum|union|fn|impl|mod|use|type|const|static|trait|extern|macro_rules!)\s*([\w#]*)"
)
DERIVE = re.compile(r"derive\([^)]*?\b(JsonSchema)\b")
WORD = re.compile(r"\w+")
CLOSES = {"(": ")", "[": "]", "{": "}"}

# What a source may name without the path, as of the prelude of `tools/derive/run`, and where it is in Rattle.
PLACES = {
    "std::borrow": "CowStr",
    "std::cell": "Cell RefCell",
    "std::cmp": "Reverse",
    "std::collections": "BTreeMap BTreeSet BinaryHeap HashMap HashSet LinkedList VecDeque",
    "std::marker": "PhantomData",
    "std::num": "NonZeroI32 NonZeroU8 NonZeroU32 Wrapping",
    "std::ops": "Bound Range RangeInclusive",
    "std::path": "PathBuf",
    "std::time": "Duration SystemTime",
    "serde_json": "Map Number Value",
}
# Types that Rattle has otherwise. An implementation does not look into a value, so any type will do.
OTHERWISE = [
    (r"\bCow<'(\w+), str>", r"CowStr<'\1>"),
    (r"\bCow<'\w+, (.*?)>(?=[,)\s])", r"\1"),
    (r"\bBox<str>", "String"),
    (r"\[(\w+)\](?!;)(?=[>,\s])", r"Vec<\1>"),
    (r"\bBox<(Vec<\w+>)>", r"\1"),
    (r"\br#(\w+)", r"\1_"),
    (r"\bserde_json::(?=Map|Number|Value)", ""),
    (r"\b(?:std|core|alloc)::(?:\w+::)+(?=[A-Z])", ""),
]
# What the keys of a map need.
KEY_DERIVES = ["PartialEq", "Eq", "PartialOrd", "Ord"]


def blanked(text):
    """The text with spaces for comments and literals."""
    lexeme = re.compile(
        r"//[^\n]*|/\*.*?\*/|b?r(#*)\".*?\"\1|b?\"(?:\\.|[^\"\\])*\"|b?'(?:\\[^\n]+?|[^'\\\n])'", re.DOTALL
    )
    return lexeme.sub(lambda found: re.sub(r"[^\n]", " ", found[0]), text)


def closing(blank, at):
    """Where the bracket at this place is closed."""
    opened = []
    for place in range(at, len(blank)):
        if blank[place] in CLOSES:
            opened.append(CLOSES[blank[place]])
        elif opened and blank[place] == opened[-1]:
            opened.pop()
            if not opened:
                return place
    return len(blank) - 1


class Item:
    """An item of a source."""

    def __init__(self, kind, name, path, places, derive):
        self.kind, self.name, self.path, self.derive = kind, name, path, derive
        self.begin, self.head, self.end = places
        self.inner = []

    def full(self):
        """The name with those of the modules."""
        return "::".join((*self.path, self.name))


def end_of(blank, kind, at, end):
    """Where an item ends that has its head here."""
    while at < end:
        if blank[at] in "([":
            at = closing(blank, at)
        elif blank[at] == "{":
            at = closing(blank, at)
            if kind not in ("use", "const", "static", "type"):
                return at + 1
        elif blank[at] == ";":
            return at + 1
        at += 1
    return end


def items_of(text, blank, at, end, path=()):
    """The items between two places."""
    items = []
    while True:
        last = at
        at += re.match(r"\s*", blank[at:end]).end()
        begin = at
        while at < end and blank[at] == "#":
            at = closing(blank, blank.index("[", at)) + 1
            at += re.match(r"\s*", blank[at:end]).end()
        found = HEAD.match(blank, at, end)
        if at >= end:
            return items
        kind, name = (found[1], found[2]) if found else ("", "")
        over = end_of(blank, kind, at, end)
        derive = DERIVE.search(text, last, at)
        item = Item(kind, name, path, (begin, at, over), derive.span(1) if derive else None)
        if kind == "mod" and blank[over - 1] == "}":
            item.inner = items_of(text, blank, blank.index("{", at) + 1, over - 1, (*path, name))
        items.append(item)
        at = over


class Source:
    """A source with its items."""

    def __init__(self, text):
        self.text, self.blank = text, blanked(text)
        self.items = items_of(self.text, self.blank, 0, len(text))
        self.types = [it for it in self.all_items() if it.kind in ("struct", "enum")]
        self.derived = [it for it in self.types if it.derive]

    def all_items(self, items=None):
        """The items, also those in modules."""
        for item in self.items if items is None else items:
            yield item
            yield from self.all_items(item.inner)

    def deriving(self, chosen):
        """The text in which these types derive, and no others, with each place as it was."""
        text = self.text
        for item in self.derived:
            if item not in chosen:
                begin, end = item.derive
                text = text[:begin] + "NoJsonType" + text[end:]
        return text

    def at(self, line):
        """The type that has this line."""
        place = len("\n".join(self.text.split("\n")[:line])) - 1
        return next((it for it in self.types if it.begin <= place < it.end), None)

    def mentions(self, item):
        """The types that the text of an item names, and those that aliases in it stand for."""
        text, seen = self.text[item.begin : item.head] + self.text[item.head : item.end].replace(item.name, "", 1), set()
        while True:
            words = set(WORD.findall(text)) - seen
            if not words:
                return [it for it in self.types if it.name in seen]
            seen |= words
            kinds = [it for it in self.all_items() if it.kind in ("type", "use") and words & {*self.names(it)}]
            text = " ".join(self.text[it.head : it.end] for it in kinds)

    def names(self, item):
        """The names that an item declares, or brings."""
        return [item.name] if item.kind == "type" else WORD.findall(self.text[item.head : item.end])

    def leads_to(self, chosen):
        """These types and those to which they lead."""
        found = []
        waits = list(chosen)
        while waits:
            item = waits.pop()
            if item not in found:
                found.append(item)
                waits += self.mentions(item)
        return [it for it in self.types if it in found]

    def rattle(self, chosen):
        """The declarations of these types as a Rattle source."""
        body = self.rattle_items(self.items, chosen)
        uses = []
        for place, names in PLACES.items():
            for name in names.split():
                is_own = any(it.name == name for it in self.types)
                if re.search(rf"\b{name}\b", body) and not re.search(rf"use [^;]*\b{name}\b", body) and not is_own:
                    uses.append(f"use {place}::{name};\n")
        return "//! Declarations.\n" + "".join(uses) + "\n" + body

    def rattle_items(self, items, chosen):
        parts = []
        for item in items:
            if item in chosen:
                made = declaration(self.text[item.begin : item.end], self.blank[item.begin : item.end])
                circle = [it for it in self.leads_to([item]) if item in self.leads_to([it])]
                parts.append((f"#[cycle({circle[0].name.lower()})]\n" if len(circle) > 1 else "") + made)
            elif item.kind == "type":
                parts.append("pub " + otherwise(self.text[item.head : item.end]).removeprefix("pub ") + "\n")
            elif item.kind == "use" and re.match(r"(pub )?use (crate|self|super|std|core|alloc)\b", self.text[item.head :]):
                parts.append(self.text[item.head : item.end] + "\n")
            elif item.kind == "use" and WORD.findall(self.text[item.head : item.end])[1] in {it.name for it in self.items}:
                parts.append(self.text[item.head : item.end].replace("use ", "use self::", 1) + "\n")
            elif item.kind == "mod" and any(it in chosen for it in self.all_items(item.inner)):
                parts.append(f"pub mod {item.name} {{\n{self.rattle_items(item.inner, chosen)}}}\n")
        return "".join(parts)


def otherwise(text):
    """A text with types as Rattle has them."""
    for old, new in OTHERWISE:
        text = re.sub(old, new, text)
    return text


def declaration(text, blank):
    """A declaration as Rattle has it, with attributes as the comment lines that are read as such."""
    parts, at = [], 0
    while at < len(text):
        found = re.compile(r"[ \t]*#(?=\[)").search(blank, at)
        begin = found.start() if found else len(text)
        parts.append(otherwise(text[at:begin]))
        if found:
            at = closing(blank, found.end()) + 1
            inner = " ".join(text[found.end() + 1 : at - 1].split())
            parts.append(("\n" if parts[-1].strip(" ")[-1:] not in ("", "\n") else "") + f"// {inner}\n")
            known = [it for it in KEY_DERIVES if inner.startswith("derive(") and it in WORD.findall(inner)]
            parts.append(f"#[derive({', '.join(known)})]\n" if known else "")
            at += re.match(r"\s*", blank[at:]).end()
        else:
            at = begin
    made = re.sub(r"(?m)^((?:[ \t]*//[^\n]*\n)*)(?:pub(?:\([^)]*\))? )?(struct|enum)\b", r"\1pub \2", "".join(parts), count=1)
    return made + "\n"
