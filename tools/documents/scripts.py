"""Whether piperun prints what the documents show beside its scripts."""
import re
import subprocess
from itertools import zip_longest

import markdown
import pages

# What a session runs a script by. It stands for piperun, and if there is none for the output that is kept beside the script.
RUN = "cargo run -q --"
# What can be run so without piperun: an example, no argument besides, and nothing that asks for its status.
KEPT = re.compile(rf"(?!.*\$\?)(?:(?!{RUN}).|{RUN} examples/\w+\.script\b)*")
FULL_TABLE = ["1 pipe"] * 128


def answers(project, script):
    """What piperun prints of a script, and its status and complaint if it has a fault."""
    run = subprocess.run([project.piperun], input=script, capture_output=True, text=True, timeout=60, check=False)
    return run.stdout + (f"status {run.returncode}: {run.stderr}" if run.returncode else "")


def same(got, wanted):
    return None if got == wanted else f"it prints {got!r}, and not {wanted!r}"


def sessions(project):
    """Each block of a document that shows commands with what they print: the first line is the command."""
    for document, text in project.documents():
        for block in markdown.blocks(text):
            if block.language == "console" and block.text.startswith("$ "):
                command, _, printed = block.text[2:].partition("\n")
                yield f"{project.short(document)}:{block.line}: the session", command, printed


def check_sessions(project):
    for label, command, printed in sessions(project):
        if not project.piperun and not KEPT.fullmatch(command):
            project.pass_over(label)
            continue
        stand_in = f'run() {{ "{project.piperun}" "$@"; }}' if project.piperun else 'run() { cat "${1%.script}.out"; }'
        shell = f"set -o pipefail; {stand_in}; {command.replace(RUN, 'run')}"
        run = subprocess.run(["bash", "-c", shell], cwd=project.root, capture_output=True, text=True, timeout=60, check=False)
        yield label, same(run.stdout, printed) if RUN in command else f"it doesn't say {RUN}"


def scripts_by_line(project):
    """The scripts that tables of the documents show, with a line in each row, its reply beside it."""
    for document, text in project.documents():
        for table in markdown.tables(text):
            number, first = table[0]
            if {"Line", "Reply", "Why"} == set(first):
                script = [code for _, row in table for code in markdown.code_of(row["Line"])]
                printed = [code for _, row in table for code in markdown.code_of(row["Reply"])]
                yield f"{project.short(document)}:{number}: the script", script, printed


def scripts_in_rows(project):
    """The scripts of docs/LINUX.md, each in a cell, and what the last line answers here."""
    for table in markdown.tables((project.root / "docs/LINUX.md").read_text(encoding="utf-8")):
        for number, row in table:
            here = next((cell for head, cell in row.items() if head.startswith("Here")), "")
            if "Script" in row:
                before = FULL_TABLE if row["Script"].startswith("a full table, then ") else []
                lines = [line.strip() for line in markdown.code_of(row["Script"])[0].split(";")]
                yield f"docs/LINUX.md:{number}: the script", ["start", *before, *lines], markdown.code_of(here)[0]


def script_of_help(project):
    """The script of the help text, and what is beside it."""
    told = project.help_text.split("prints what stands beside it:\n", 1)[1].split("Status:", 1)[0]
    pairs = re.findall(r"^  (\S.*?)  +(\S.*)$", told, re.MULTILINE)
    return [line for line, _ in pairs], [reply for _, reply in pairs]


def check_scripts(project):
    if not project.piperun:
        project.pass_over("the scripts, by piperun")
        return
    shown = [*scripts_by_line(project), ("the help text: the script", *script_of_help(project))]
    page = pages.literals((project.root / "library/man/piperun.1").read_text(encoding="utf-8"), "EXAMPLES")
    blocks = [block.splitlines() for block in page]
    pairs = zip_longest(blocks[::2], blocks[1::2], fillvalue=[])
    shown += [(f"piperun.1: the script {script[-1]}", script, printed) for script, printed in pairs]
    for label, script, printed in shown:
        yield label, same(answers(project, "\n".join(script)).splitlines(), printed)
    for label, script, last in scripts_in_rows(project):
        yield label, same(answers(project, "\n".join(script)).splitlines()[-1:], [last])


def check_names_of_examples(project):
    """Each example that the rules name is there."""
    for table in markdown.tables((project.root / "docs/RULES.md").read_text(encoding="utf-8")):
        for number, row in table:
            if {"Name", "What it shows"} == set(row):
                for name in markdown.code_of(row["Name"]):
                    is_there = all((project.root / f"examples/{name}.{end}").exists() for end in ("script", "out"))
                    yield f"docs/RULES.md:{number}: the example {name}", None if is_there else "it isn't in examples/"
