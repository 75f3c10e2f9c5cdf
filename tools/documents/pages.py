"""Whether the manual pages say what the header and the rules do, and whether they are shown without a warning."""
import re
import shutil
import subprocess

import markdown

# in the order that mdoc(7) asks for
SECTIONS = {
    "1": ["NAME", "SYNOPSIS", "DESCRIPTION", "EXIT STATUS", "EXAMPLES", "DIAGNOSTICS", "SEE ALSO"],
    "3": ["NAME", "SYNOPSIS", "DESCRIPTION", "RETURN VALUES", "EXAMPLES", "ERRORS", "SEE ALSO"],
    "7": ["NAME", "SYNOPSIS", "DESCRIPTION", "EXAMPLES", "SEE ALSO"],
}
DECLARED = re.compile(r"^(?:static inline )?(\w[\w ]*?(?: \*+| ))((?:bindingclay|bc)_\w+)\(([^()]*)\)\s*[;{]", re.MULTILINE)
# what the header has only for its macros
INNER = "bindingclay_c_"
# which call of docs/RULES.md a function makes
OF_RULES = {
    "start": "Start", "fork": "Fork", "pipe": "Pipe", "pipe2": "Pipe", "mkfifo": "Mkfifo", "open_name": "OpenName", "read": "Read",
    "write": "Write", "splice": "Splice", "splice_at": "Splice", "tee": "Tee", "poll": "Poll", "dup": "Dup", "dup2": "Dup2",
    "dup_fd": "DupFd", "get_pipe_sz": "GetPipeSz", "set_pipe_sz": "SetPipeSz", "lseek": "Lseek", "unlink": "Unlink",
}
NAME_ERRORS = ["ENOENT", "ENAMETOOLONG", "EINVAL"]


def section(text, title):
    """What a page has under a title."""
    found = re.search(rf"^\.Sh {title}\n(.*?)(?=^\.Sh |\Z)", text, re.DOTALL | re.MULTILINE)
    return found.group(1) if found else ""


def names(text):
    return re.findall(r"^\.Nm (\w+)", section(text, "NAME"), re.MULTILINE)


def literals(text, title):
    """The literal blocks under a title, as they are shown."""
    found = re.findall(r"^\.Bd -literal.*?\n(.*?)^\.Ed$", section(text, title), re.DOTALL | re.MULTILINE)
    return [block.replace("\\-", "-").replace("\\e", "\\") for block in found]


def one_line(result, name, arguments):
    squeezed = [re.sub(r"\s*(\*+)\s*", r" \1", " ".join(argument.split())) for argument in arguments]
    return f"{result} {name}({', '.join(squeezed)})"


def declared(header):
    """Each function of the headers, with its declaration in one line."""
    plain = re.sub(r"/\*.*?\*/|^[ \t]*#.*?(?<!\\)$", "", header, flags=re.DOTALL | re.MULTILINE)
    found = {name: one_line(result.strip(), name, arguments.split(",")) for result, name, arguments in DECLARED.findall(plain)}
    return {name: line for name, line in found.items() if not name.startswith(INNER)}


def synopsis(text):
    """Each function of a page's synopsis, with its declaration in one line."""
    found = re.findall(r"^\.Ft (.*)\n\.Fo (\w+)\n((?:\.Fa .*\n)+)\.Fc$", section(text, "SYNOPSIS"), re.MULTILINE)
    return {
        name: one_line(result, name, [argument.strip('"') for argument in re.findall(r"^\.Fa (.*)$", arguments, re.MULTILINE)])
        for result, name, arguments in found
    }


def check_functions(project):
    """Each function of the header is in one page, as it is declared, and no page has another. Each is found by its name if installed."""
    functions = declared(project.header)
    pages = {path.name: synopsis(text) for path, text in project.pages("3")}
    for path, text in project.pages("3"):
        same = sorted(names(text)) == sorted(pages[path.name])
        yield f"{path.name}: its names", None if same else "NAME and SYNOPSIS have other functions"
    for name in sorted(set(functions) | {name for page in pages.values() for name in page}):
        lines = [page[name] for page in pages.values() if name in page]
        if name not in functions:
            yield f"{name} of a page", "the headers haven't got it"
        elif lines != [functions[name]]:
            yield f"the page of {name}", f"declared is {functions[name]}, and pages have {lines}"
        else:
            yield f"the page of {name}", None
        if project.prefix and name in functions:
            yield f"the installed page of {name}", found_by_name(project.prefix / "share/man", name)


def found_by_name(folder, name):
    path = folder / "man3" / f"{name}.3"
    text = path.read_text(encoding="utf-8") if path.exists() else ""
    link = re.fullmatch(r"\.so (\S+)\n", text)
    if link and (folder / link.group(1)).exists():
        text = (folder / link.group(1)).read_text(encoding="utf-8")
    return None if name in names(text) else f"{path} isn't a page that names it, nor a link to one"


def check_pages(project):
    """Each page has its sections in order, names only pages that there are, and is shown without a warning."""
    known = {(name, path.suffix[1:]) for path, text in project.pages() for name in names(text)}
    known |= {(path.stem, path.suffix[1:]) for path, _ in project.pages()}
    tools = {"groff": ["-ww", "-Tutf8", "-mandoc"], "mandoc": ["-Tlint", "-Wwarning"]}
    for tool in tools:
        if shutil.which(tool) is None:
            project.pass_over(f"the manual pages by {tool}")
    for path, text in project.pages():
        titles = re.findall(r"^\.Sh (.*)$", text, re.MULTILINE)
        yield f"{path.name}: its sections", None if titles == SECTIONS[path.suffix[1:]] else ", ".join(titles)
        for name, number in re.findall(r"^\.Xr (\S+) (\d)", text, re.MULTILINE):
            if "bindingclay" in name or name == "piperun":
                yield f"{path.name}: {name}({number})", None if (name, number) in known else "there is no such page"
        for tool, words in tools.items():
            if shutil.which(tool):
                shown = subprocess.run([tool, *words, str(path)], capture_output=True, text=True, check=False)
                said = shown.stderr + (shown.stdout if tool == "mandoc" else "")
                fault = said.strip() or (None if shown.returncode == 0 else f"status {shown.returncode}")
                yield f"{path.name} by {tool}", fault


def once(errors):
    """A list without its neighbours that are equal."""
    return [error for place, error in enumerate(errors) if place == 0 or errors[place - 1] != error]


def lists(text):
    """Each list of errors of a page: what the paragraph before it says, and the heads of its items."""
    before, heads = [], None
    for line in section(text, "ERRORS").split("\n"):
        if line == ".Bl -tag -width Er":
            heads = []
        elif line == ".El":
            if heads is not None:
                yield before, heads
            before, heads = [], None
        elif heads is not None:
            heads += [line] if line.startswith(".It ") else []
        else:
            before = [] if line == ".Pp" else [*before, line]


def refusals(text):
    """The errors of each function of a page, in the order in which it lists them behind BINDINGCLAY_NO_PROCESS."""
    found = {}
    for before, heads in lists(text):
        process = [place for place, line in enumerate(heads) if "BINDINGCLAY_NO_PROCESS" in line]
        errors = [name for line in heads[process[0] if process else 0 :] for name in re.findall(r"\bE[A-Z]{3,}\b", line)]
        named = [line.split()[1] for line in before if line.startswith(".Fn ")]
        for name in named or names(text):
            # a page that tells the first two refusals once for all its calls goes on behind these
            found[name] = errors if process else ["EBADF", *errors]
    return found


def rules(project):
    """The errors of each call of the rules, in order, and whether others may follow."""
    found = {}
    for table in markdown.tables((project.root / "docs/RULES.md").read_text(encoding="utf-8")):
        for _, row in table:
            if {"Call", "Checks, in order"} == set(row):
                checks = row["Checks, in order"].replace("The name.", ": ".join(["", *(f"`{name}`" for name in NAME_ERRORS)]))
                for call in row["Call"].split(", "):
                    found[call] = re.findall(r": `(E[A-Z]+)`", checks), "as above" in checks
    return found


def check_refusals(project):
    """The pages list the refusals of each call in the order of the rules."""
    wanted = rules(project)
    for path, text in project.pages("3"):
        for name, errors in refusals(text).items():
            call = OF_RULES.get(name.removeprefix("bindingclay_"))
            if call:
                listed, may_follow = wanted.get(call, (["no such call"], False))
                got = once(errors)[: len(once(listed))] if may_follow else once(errors)
                yield f"{path.name}: the refusals of {name}", None if got == once(listed) else f"{got}, and the rules have {listed}"


def check_lines(project):
    """piperun(1) has the lines of the help text."""
    told = project.help_text
    told = told[told.index("Each line of a script") : told.index("A call that would wait")]
    wanted = set(re.findall(r"^  (\S.*?)(?:  +.*)?$", told, re.MULTILINE))
    page = section((project.root / "library/man/piperun.1").read_text(encoding="utf-8"), "DESCRIPTION")
    shown = "".join(part for part in page.split(".Ss ") if part.startswith(("Lines\n", "Version 2\n")))
    got = {line.replace("\\-", "-") for line in re.findall(r'^\.It Li "(.*)"$', shown, re.MULTILINE)}
    for line in sorted(wanted | got):
        fault = None if line in wanted and line in got else "only one of piperun(1) and its help text has it"
        yield f"piperun.1: the line {line}", fault


def check_versions(project):
    """The header, the pages, README and what is installed name one version."""
    version = ".".join(re.findall(r"^#define BINDINGCLAY_VERSION_(?:MAJOR|MINOR|PATCH) (\d+)$", project.header, re.MULTILINE))
    named = {path.name: (rf"^\.Os Bindingclay {re.escape(version)}$", text) for path, text in project.pages()}
    named["README.md"] = (rf"^\| Version \| This is {re.escape(version)}\. ", (project.root / "README.md").read_text(encoding="utf-8"))
    if project.prefix:
        installed = project.prefix / "lib/pkgconfig/bindingclay.pc"
        named["bindingclay.pc"] = (rf"^Version: {re.escape(version)}$", installed.read_text(encoding="utf-8"))
    for name, (pattern, text) in named.items():
        fault = None if re.search(pattern, text, re.MULTILINE) else f"it isn't {version}"
        yield f"{name}: the version", fault
