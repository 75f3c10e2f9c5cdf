"""Whether what the documents name is there: links and their anchors, paths, crates, and the definitions that docs/RULES.md cites."""
import fnmatch
import os
import re
from pathlib import Path

import markdown

# what a build makes, or a package of Cargo has
BUILT = re.compile(r"(.*/)?out(/.*)?|src/(parts|checks)|build\.rs|libbindingclay\.\S+|libmemory\.a|liblibc_c\.a")
PASSED = (".git", "out", "target", "__pycache__")
PATH = re.compile(r"(?:\.{1,2}/)*([\w.*-]+(?:/[\w.*-]+)*)/?")
ENDING = re.compile(r"[\w*-]+\.(?:antt|args|c|cpp|h|md|out|py|rs|rt|script|sh)")
STANDS_FOR_ANY = re.compile(r"\*|\b[A-Z]{2,}(?=/|$|\.(?:antt|args|out|script))")
# docs/RUST.md has pl_x for any crate
CRATE = re.compile(r"\bpl_(?!x\b)[a-z_]+")
CITED = re.compile(r"((?:`\w+`,?\s+(?:and\s+)?)+)in\s+`([A-Z]\w+|crates/[\w/]+\.antt)`")
SPECS = "crates/pl_model/specs"


def all_paths(root):
    """The path of each file and folder below the root, as its parts."""
    for folder, inner, files in os.walk(root):
        inner[:] = [name for name in inner if name not in PASSED]
        for name in inner + files:
            yield (Path(folder) / name).relative_to(root).parts


class Places:
    """The paths of the repository, by their ends."""

    def __init__(self, root):
        self.root = root
        self.top = {path.name for path in root.iterdir()} - set(PASSED)
        self.ends = {parts[first:] for parts in all_paths(root) for first in range(len(parts))}

    def has(self, parts, near):
        """Whether a path is there: from the top or from the document if it begins with what the top has, and else below any folder."""
        pattern = STANDS_FOR_ANY.sub("*", "/".join(parts))
        if parts[0] in self.top:
            return any(True for folder in (self.root, near) for _ in folder.glob(pattern))
        if "*" in pattern:
            return any(fnmatch.fnmatchcase("/".join(end), pattern) for end in self.ends if len(end) == len(parts))
        return parts in self.ends


def named_paths(words):
    """The paths among the words of a piece of code."""
    for word in words.split():
        found = PATH.fullmatch(word)
        if found and ("/" in word.strip("/") or word.endswith("/") or ENDING.fullmatch(word)) and not BUILT.fullmatch(found.group(1)):
            if not word.startswith(("PREFIX", "FOLDER")) and re.search("[a-z]", word):
                yield tuple(found.group(1).split("/"))


def check_links(project):
    for document, text in project.documents():
        for line, target in markdown.links(text):
            if "://" in target:
                continue
            name, _, anchor = target.partition("#")
            there = document.parent / name if name else document
            label = f"{project.short(document)}:{line}: the link {target}"
            if not there.exists():
                yield label, "nothing is there"
            elif anchor and anchor not in markdown.anchors(there.read_text(encoding="utf-8")):
                yield label, "no heading has this anchor"
            else:
                yield label, None


def check_paths(project):
    places = Places(project.root)
    for document, text in project.documents():
        shells = [(block.line, block.text) for block in markdown.blocks(text) if block.language in ("sh", "console")]
        for line, code in markdown.spans(text) + shells:
            for parts in named_paths(code):
                fault = None if places.has(parts, document.parent) else "no such path"
                yield f"{project.short(document)}:{line}: the path {'/'.join(parts)}", fault


def check_crates(project):
    crates = {path.name for path in (project.root / "crates").iterdir()}
    for document, text in project.documents():
        for number, line in enumerate(text.split("\n"), 1):
            for name in CRATE.findall(line):
                yield f"{project.short(document)}:{number}: the crate {name}", None if name in crates else "no such crate"


def check_definitions(project):
    """Each definition that the rules cite, as `name` in `File`, is in that file."""
    text = (project.root / "docs/RULES.md").read_text(encoding="utf-8")
    for found in CITED.finditer(text):
        names, file = re.findall(r"`(\w+)`", found.group(1)), found.group(2)
        path = project.root / (file if "/" in file else f"{SPECS}/{file}.antt")
        specs = path.read_text(encoding="utf-8") if path.exists() else ""
        for name in names:
            fault = None if re.search(rf"(?<![\w-]){name}(?![\w-])", specs) else f"{project.short(path)} hasn't got it"
            yield f"docs/RULES.md:{markdown.line_at(text, found.start())}: the definition {name}", fault
