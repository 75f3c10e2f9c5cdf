"""Whether the programs in C that the documents show compile without a warning, and do what is said of them."""
import concurrent.futures
import re
import subprocess
from itertools import zip_longest
from typing import NamedTuple, Optional

import markdown
import pages

FLAGS = ["-std=c11", "-Wall", "-Wextra", "-Werror"]
HEADERS = ["bindingclay.h", "assert.h", "errno.h", "fcntl.h", "poll.h", "stdio.h", "string.h"]
# the header of the front for threads
FRONT = "bindingclay_shared.h"
# the header of an allocator, whose archive has the others
ALLOCATOR = "bindingclay_allocator.h"
# what a fragment tells of its last answer
TELLS = re.compile(r'/\* done: value (\d+), "(\w*)" \*/')


class Program(NamedTuple):
    label: str
    source: str
    # what it prints; None if nothing says so
    prints: Optional[str]


def whole(fragment):
    """A program of some statements. It fails if the last answer isn't as they say."""
    told = TELLS.search(fragment)
    holds = "1"
    if told:
        count, text = told.groups()
        holds = f'answer.kind == BINDINGCLAY_DONE && answer.value == {count} && memcmp(into, "{text}", {len(text)}) == 0'
    includes = "".join(f"#include <{name}>\n" for name in HEADERS)
    return f"{includes}\nint main(void)\n{{\n{fragment}return {holds} ? 0 : 2;\n}}\n"


def programs(project):
    """Each program of the documents and of the manual pages, and the examples of the library with what its README says that they print."""
    for document, text in project.documents():
        shown = markdown.blocks(text)
        for block, after in zip_longest(shown, shown[1:]):
            if block.language == "c":
                source = block.text if "int main(" in block.text else whole(block.text)
                # a block of a console behind a program is what that prints, if it has no command
                prints = after.text if after and after.language == "console" and not after.text.startswith("$ ") else None
                yield Program(f"{project.short(document)}:{block.line}", source, prints)
    for path, text in project.pages():
        shown = pages.literals(text, "EXAMPLES")
        if shown and "int main(" in shown[0]:
            yield Program(path.name, shown[0], shown[1] if len(shown) > 1 else None)
    library = project.root / "library"
    printed = [block.text for block in markdown.blocks((library / "README.md").read_text(encoding="utf-8")) if block.language == "console"]
    printed += ["nothing says what"] * 3
    for name, prints in zip(("example", "example_loop", "example_record"), printed):
        yield Program(f"library/{name}.c", (library / f"{name}.c").read_text(encoding="utf-8"), prints)


def fault_of(project, number, program):
    """What is wrong with a program. It is run if the library is installed."""
    built = project.work / f"program{number}"
    source = built.with_suffix(".c")
    source.write_text(program.source, encoding="utf-8")
    words = [project.cc, *FLAGS, str(source)]
    if project.prefix:
        archives = ["-lbindingclay_shared", "-lbindingclay", "-pthread"] if FRONT in program.source else ["-lbindingclay"]
        if ALLOCATOR in program.source:
            archives = ["-lbindingclay_allocator", "-pthread"]
        words += [f"-I{project.prefix}/include", "-o", str(built), f"-L{project.prefix}/lib", *archives]
    else:
        words += [f"-I{project.root}/library/include", f"-I{project.root}/library/blocking"]
        words += [f"-I{project.root}/library/allocator", "-fsyntax-only"]
    compiled = subprocess.run(words, capture_output=True, text=True, check=False)
    if compiled.returncode != 0 or not project.prefix:
        return compiled.stderr.strip() or (None if compiled.returncode == 0 else "it doesn't compile")
    run = subprocess.run([str(built)], capture_output=True, text=True, timeout=60, check=False)
    if run.returncode != 0:
        return f"status {run.returncode}"
    if program.prints is not None and run.stdout != program.prints:
        return f"it prints {run.stdout!r}, and not {program.prints!r}"
    return None


def check_programs(project):
    if not project.has(project.cc):
        project.pass_over("the programs in C")
        return
    if not project.prefix:
        project.pass_over("running the programs in C")
    with concurrent.futures.ThreadPoolExecutor() as pool:
        asked = [(program.label, pool.submit(fault_of, project, number, program)) for number, program in enumerate(programs(project))]
        for label, fault in asked:
            yield f"{label}: the program", fault.result()
