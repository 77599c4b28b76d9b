"""What contracts mean: the statements of a crate and of those below it, by name, without comments and bodies."""
import re
from collections import defaultdict

from workspace import CRATES, TOP

WORD = re.compile(r"\w[\w-]*")
# The name of a definition of specs/, at its head.
DEFINITION = re.compile(r"\s*(?:(?:pub|abbrev|unfoldable|record|data) )*([\w-]+)")
# A declaration of a source, and an impl of a trait for a type, each to its last line.
DECLARATION = re.compile(r"(?m)^(?:pub(?:\(\w+\))? )?(?:struct|enum|trait|const|type|macro_rules!) (\w+)\b(?:.*[;}]$|(?:.*\n)*?\S*[};]$)")
IMPL = re.compile(r"(?m)^impl\b[^{]*?\b(\w+)(?:<[^{]*>)? for &?(?:'\w+ )?(?:mut )?(\w+)(?:.*\{\}$|(?:.*\n)*?\}$)")


def bare(text):
    """A text without its lines of comments and imports."""
    return re.sub(r"(?m)^ *(?://|--|(?:(?:pub|ghost) )*use ).*\n", "", text)


def crates_below(crate):
    """The crate and the repository's crates that it stands on."""
    lines = (it.partition(":") for it in (TOP / "crates.txt").read_text().splitlines())
    uses = {name: deps.split() for name, _, deps in lines}
    return [crate, *(found for it in uses[crate] if it in uses for found in crates_below(it))]


def contracts_of(block):
    """The head of an impl or a trait, and its items for contracts."""
    return block.partition("{\n")[0] + "".join(re.findall(r"(?m)^    ghost .*(?:\n {8}.*|\n    \};)*", block))


def impl_at(source, at):
    """The contracts of the impl or trait that a place of a source stands in, or nothing."""
    begin = max((it.start() for it in re.finditer(r"(?m)^(?:impl|pub trait|trait)\b", source[:at])), default=len(source))
    end = source.find("\n}\n", begin)
    return contracts_of(source[begin:end]) if end >= at else ""


def header_at(source, at):
    """A function's signature and contract, from a place in the line of its `fn`."""
    lines = source[source.rfind("\n", 0, at) + 1 :].splitlines()
    margin = re.match(" *", lines[0])[0]
    for number, line in enumerate(lines):
        is_clause = re.match(r" *(?:requires|ensures|ghost)\b", line)
        if line in (margin + "{", margin + "{}") or line.endswith(";") or (line.endswith((" {", " {}")) and not is_clause):
            return "\n".join(lines[: number + 1])
    return lines[0]


class Statements:
    """The statements of a crate and of those below it."""

    def __init__(self, crate):
        self.said, self.headers, self.impls = defaultdict(set), defaultdict(set), []
        for name in dict.fromkeys(crates_below(crate)):
            for file in sorted((CRATES / name / "specs").rglob("*.antt")):
                self.read_definitions(bare(file.read_text()))
            for file in sorted((CRATES / name / "src").rglob("*.rt")):
                self.read_source(bare(file.read_text()))
        self.names = {*self.said, *(name for names, _ in self.impls for name in names)}

    def read_definitions(self, text):
        """Reads a file of definitions, which stand apart by empty lines."""
        parameters = "\n".join(re.findall(r"(?m)^ *module .*$", text))
        for block in re.split(r"\n\s*\n", re.sub(r"(?m)^ *module .*\n", "", text)):
            named = DEFINITION.match(block)
            if named:
                self.said[named[1]].add(f"{parameters}\n{block.strip()}")

    def read_source(self, text):
        """Reads a source: its declarations, the contracts of its impls, and the headers of its functions."""
        for found in DECLARATION.finditer(text):
            self.said[found[1]].add(found[0])
        for found in IMPL.finditer(text):
            # A `Model` is how all contracts see its type.
            self.impls.append(({found[1], found[2]} - {"Model"}, contracts_of(found[0])))
        for found in re.finditer(r"\bfn (\w+)", text):
            self.headers[found[1]].add(header_at(text, found.start()))

    def below(self, texts):
        """These texts, the headers of the functions that they call, and all that texts and headers name, and that this names in turn."""
        called = {name for it in texts for name in re.findall(r"\b(\w+)(?:::<[^()]*>)?\(", it)}
        found, named = [*texts, *sorted(header for name in called for header in self.headers.get(name, ()))], set()
        for text in found:
            for word in sorted(self.names.intersection(WORD.findall(text)) - named):
                named.add(word)
                found += sorted(self.said.get(word, ()))
                found += [it for names, it in self.impls if word in names and names <= named]
        return found
