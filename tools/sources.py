"""What the tools read in crates/*/src: each public function with the clauses of its contract, and what the crate flows hands on."""
import glob
import os
import re
import sys

ROOT = os.path.dirname(os.path.dirname(os.path.abspath(__file__)))
SIGNATURE = re.compile(r"\bpub(\(crate\))?\s+(?:extern\s+\"C\"\s+)?fn\s+(\w+)")


class Function:
    """A public function. `requires` and `ensures` have the text of each clause."""

    def __init__(self, crate, name, outside, where, parameters):
        self.crate, self.name, self.outside, self.where, self.parameters = crate, name, outside, where, parameters
        self.requires, self.ensures = [], []

    @property
    def key(self):
        return f"{self.crate}::{self.name}"


def asked(doc, option):
    """Whether a tool was given its one option. --help tells of it and ends it, and anything else is refused in a line."""
    given = sys.argv[1:]
    if given in (["-h"], ["--help"]):
        print(doc.strip())
        sys.exit(0)
    if given not in ([], [option]):
        print(f"usage: {os.path.basename(sys.argv[0])} [{option}]", file=sys.stderr)
        sys.exit(2)
    return given == [option]


def crates():
    """The crates in the order of crates.txt."""
    with open(os.path.join(ROOT, "crates.txt"), encoding="utf-8") as lines:
        return [line.split(":")[0] for line in lines if ":" in line and not line.startswith("#")]


def of_the_program():
    """The crates under the remark '# the program' of crates.txt, and those that are programs themselves."""
    part = re.search(r"^# the program[^\n]*\n((?:[^#\n][^\n]*\n)*)", read("crates.txt"), re.M)
    named = re.findall(r"^(\w+):", part.group(1), re.M) if part else []
    return {crate for crate in crates() if crate in named or os.path.exists(os.path.join(ROOT, "crates", crate, "src", "main.rt"))}


def read(*path):
    with open(os.path.join(ROOT, *path), encoding="utf-8") as text:
        return text.read()


def sources(crate="*"):
    """The paths of a crate's sources, or of all."""
    return sorted(os.path.relpath(path, ROOT) for path in glob.glob(os.path.join(ROOT, "crates", crate, "src", "**", "*.rt"), recursive=True))


def without_comments(text):
    return re.sub(r"//[^\n]*", "", text)


def behind(text, start):
    """The place behind the bracket that closes the one at `start`."""
    opening, closing = text[start], {"(": ")", "{": "}"}[text[start]]
    depth = 0
    for i in range(start, len(text)):
        depth += (text[i] == opening) - (text[i] == closing)
        if depth == 0:
            return i + 1
    return len(text)


def unquoted(clause):
    """A clause in one line, without the marks that a starred clause has around a fact."""
    return re.sub(r"^(?:do )?⌜ (.*) ⌝$", r"\1", " ".join(clause.split()))


def functions(text, crate="", path=""):
    """The public functions of a source text, in order. One that belongs to a type has its name in front."""
    text = without_comments(text)
    for match in SIGNATURE.finditer(text):
        owner = re.findall(r"^impl\s+(\w+)|^(\})", text[: match.start()], re.M)
        name = f"{owner[-1][0]}::{match.group(2)}" if owner and owner[-1][0] else match.group(2)
        line = text.count("\n", 0, match.start()) + 1
        opening = text.index("(", match.end())
        at = behind(text, opening)
        found = Function(crate, name, not match.group(1), f"{path}:{line}", re.findall(r"(\w+)\s*:", text[opening:at]))
        brace = text.find("{", at)
        while brace >= 0 and (word := re.search(r"\b(requires|ensures)\b\*?\s*\w*\s*$", text[at:brace])):
            at = behind(text, brace)
            (found.requires if word.group(1) == "requires" else found.ensures).append(unquoted(text[brace + 1 : at - 1]))
            brace = text.find("{", at)
        yield found


def functions_of(crate):
    return [function for path in sources(crate) for function in functions(read(path), crate, path)]


def handed_on():
    """The pairs of crate and name that the crate flows hands on, in order."""
    found = re.findall(r"^pub use (\w+)::(\w+|\{[^}]*\});", read("crates", "flows", "src", "lib.rt"), re.M)
    return [(crate, name) for crate, names in found for name in re.findall(r"\w+", names)]
