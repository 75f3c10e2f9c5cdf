"""Runs test programs on the host and over the layer, and compares what each of their tests tells: suites.py OBJECT FOLDER [short]

OBJECT is bindingclay_preload, and FOLDER one that is empty. The list suites names the programs, and differences.md the tests that differ. A
difference that isn't listed is refused, and so is a listed one that didn't occur, and a program of which nothing reached the layer. A test
that differs is run once more on both, since some depend on how busy a machine is; what differs then too counts.
"""

import os
import pathlib
import re
import shutil
import subprocess
import sys
import xml.etree.ElementTree

HERE = pathlib.Path(__file__).resolve().parent
# how long a program may run, in seconds
TIME = 600
COUNTED = {
    "calls": ("fifo_opens", "reads", "writes", "splices", "tees", "polls", "dups", "flags"),
    "moves": ("moves",),
}


def programs_of(text):
    """The programs of a list: (when, kind, need, words) of each."""
    lines = (line.split() for line in text.splitlines() if line and not line.startswith("#"))
    return [(when, kind, need, words) for when, kind, need, *words in lines]


def differences_of(text):
    """The listed differences: (program, test) of each, with what the host and the layer tell."""
    rows = re.findall(r"^\| `([^`]+)` \| `([^`]+)` \| (\S+) \| (\S+) \| \S.* \|$", text, re.MULTILINE)
    return {(program, test): (host, layer) for program, test, host, layer in rows}


def told_by_python(file):
    """What a report of CPython's tests tells of each: completed, skipped, failure or error."""
    told = {}
    if file.exists():
        for case in xml.etree.ElementTree.parse(file).iter("testcase"):
            ends = [part.tag for part in case if part.tag in ("failure", "error", "skipped")]
            told[case.get("name")] = ends[0] if ends else case.get("result")
    return told


def told_by_tap(text):
    """What a program that speaks TAP tells of each of its numbers: ok, not-ok or skipped."""
    told = {}
    for bad, number, rest in re.findall(r"^(not )?ok (\d+)(.*)$", text, re.MULTILINE):
        is_skipped = re.search(r"# *skip", rest, re.IGNORECASE)
        told[number] = "skipped" if is_skipped else "not-ok" if bad else "ok"
    return told


def told_by_tcl(text):
    """What a file of Tcl's tests tells of each: passed, skipped or failed."""
    told = {name: word.lower() for name, word in re.findall(r"^\+\+\+\+ (\S+) (PASSED|SKIPPED)", text, re.MULTILINE)}
    return {**told, **{name: "failed" for name in re.findall(r"^==== (\S+) .*FAILED$", text, re.MULTILINE)}}


def counts_of(text):
    """The sums of the counts that processes wrote."""
    sums = {}
    for line in text.splitlines():
        words = line.split()
        for name, number in zip(words[2::2], words[3::2]):
            sums[name] = sums.get(name, 0) + int(number)
    return sums


def command_of(kind, words):
    """What runs a program, and where; or None if it isn't there."""
    python = os.environ.get("PYTHON", sys.executable)
    perl_tests = pathlib.Path(os.environ.get("PERL_TESTS", "/nonexistent"))
    tcl_tests = pathlib.Path(os.environ.get("TCL_TESTS", "/nonexistent"))
    glib_tests = pathlib.Path(os.environ.get("GLIB_TESTS", "/usr/libexec/installed-tests/glib"))
    if kind == "python":
        module = subprocess.run([python, "-c", f"import test.{words[0]}"], capture_output=True, check=False)
        return ([python, "-m", "test", "--junit-xml", "told.xml", *words], None) if module.returncode == 0 else None
    if kind == "perl":
        return (["perl", *words], perl_tests) if (perl_tests / words[0]).exists() else None
    if kind == "tcl":
        command = ["tclsh", str(tcl_tests / words[0]), "-verbose", "pass skip", "-tmpdir", "."]
        return (command, None) if (tcl_tests / words[0]).exists() and shutil.which("tclsh") else None
    return ([str(glib_tests / words[0]), "--tap"], None) if (glib_tests / words[0]).exists() else None


def run(kind, words, folder, extra):
    """Runs a program, and tells what each of its tests tells; None if it isn't there."""
    found = command_of(kind, words)
    if found is None:
        return None
    command, where = found
    folder.mkdir()
    environment = {**os.environ, **extra, "TMPDIR": str(folder)}
    if kind == "glib":
        tests = str(pathlib.Path(command[0]).parent)
        environment.update(G_TEST_SRCDIR=tests, G_TEST_BUILDDIR=tests)
    command = ["timeout", "-k", "5", str(TIME), *command]
    with open(folder / "printed", "wb") as printed:
        done = subprocess.run(command, cwd=where or folder, env=environment, stdin=subprocess.DEVNULL, stdout=printed,
                              stderr=subprocess.STDOUT, check=False)
    text = (folder / "printed").read_text("utf-8", "replace")
    told = told_by_python(folder / "told.xml") if kind == "python" else told_by_tcl(text) if kind == "tcl" else told_by_tap(text)
    return {**told, "status": str(done.returncode)}


def differing(host, layer):
    """The tests that tell other things: what both tell of each."""
    names = sorted({*host, *layer})
    return {name: (host.get(name, "-"), layer.get(name, "-")) for name in names if host.get(name) != layer.get(name)}


def faults_of(found, listed):
    """What is wrong with the differences that were found, beside those that are listed."""
    faults = [f"{name}: host {host}, layer {layer}" for name, (host, layer) in found.items() if listed.get(name) != (host, layer)]
    return faults + [f"{name}: listed, and it didn't occur" for name in listed if name not in found]


def lacking(need, counts):
    """What a run has to ask the layer for and didn't."""
    asked = sum(counts.get(name, 0) for name in COUNTED[need])
    return [] if asked > 0 and counts.get("pipes", 0) + counts.get("fifo_opens", 0) > 0 else [f"no {need} reached the layer"]


def try_program(words, kind, need, preload, folder, listed):
    """Runs a program on both, and tells the faults and how many tests there were; None if it isn't there."""
    count_file = folder / "counts"
    over_layer = {"LD_PRELOAD": str(preload), "BINDINGCLAY_PRELOAD_COUNT": str(count_file), "BINDINGCLAY_PRELOAD_FIFOS": str(folder)}
    folder.mkdir()
    host = run(kind, words, folder / "host", {})
    if host is None:
        return None
    layer = run(kind, words, folder / "layer", over_layer)
    found = differing(host, layer)
    if set(found) != set(listed):
        again = differing(run(kind, words, folder / "host-again", {}), run(kind, words, folder / "layer-again", over_layer))
        found = {name: told for name, told in found.items() if again.get(name) == told}
    counts = counts_of(count_file.read_text() if count_file.exists() else "")
    faults = faults_of(found, listed) + lacking(need, counts)
    if len(host) == 1:
        faults.append("the host told of no test")
    asked = ", ".join(f"{name} {number}" for name, number in counts.items() if number > 0)
    print(f"{kind} {words[0]}: {len(host) - 1} tests, {asked}", flush=True)
    return faults


def main():
    preload, folder = pathlib.Path(sys.argv[1]).resolve(), pathlib.Path(sys.argv[2]).resolve()
    is_short = sys.argv[3:] == ["short"]
    differences = differences_of((HERE / "differences.md").read_text())
    passed = failed = 0
    for number, (when, kind, need, words) in enumerate(programs_of((HERE / "suites").read_text())):
        if is_short and when != "short":
            continue
        program = f"{kind} {' '.join(words)}"
        listed = {test: told for (of, test), told in differences.items() if of == program}
        faults = try_program(words, kind, need, preload, folder / str(number), listed)
        if faults is None:
            print(f"passed over: {program}, as it isn't there")
        elif faults:
            failed += 1
            print(f"FAILED: {program}", *faults, sep="\n    ")
        else:
            passed += 1
    print(f"{passed} passed, {failed} failed")
    return 1 if failed else 0


if __name__ == "__main__":
    sys.exit(main())
