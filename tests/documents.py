#!/usr/bin/env python3
"""Compares the documents with the sources and with the built program NBDJ. Prints a line for each check that fails; last 'N passed, M failed'.

- The table of refusals in docs/FORMATS.md has the number and text of each refusal in the sources, and the text of each error of a crate;
  each row is in some crate. The refusals in the file NBDJ_TOLD, which runs of the other checks ended with, are in the table. Rows that no
  run ended with are printed, because only the sources vouch for them.
- The commands in console blocks of README.md and docs/ print what stands there.
- The shell block of README.md, a first served image, runs to its end, if its client is installed.
- The man page, docs/nbdj.1, has the synopsis, texts, arguments, options, names of values, defaults and values of each command's `--help`.
- The man pages of nbdj-server and nbdj-standby have the synopsis of the script's usage and the signals of its trap. All three have the
  program's version, and man formats them without a warning.
- The completion for bash, packaging/nbdj.bash, has the commands of the man page.
- Each wrong body, in crates/CRATE/must-fail/, wrong-bodies/CRATE/ and wrong-bodies/by-test/, changes texts that stand once in the crate's
  sources; those for a test name one.
- docs/DESIGN.md has the table of crates that tools/crate-table makes of crates.txt, and docs/ASSURANCE.md the tables of definitions and of
  functions that tools/headline-definitions and tools/functions-without-clauses make of the sources.
- The charts of docs/PERFORMANCE.md are those that tools/chart makes of its tables.
- Files of crates that documents name exist, and so do the targets of links between documents.
- Prose wraps at 100 columns.
"""
import glob
import os
import re
import shutil
import subprocess
import sys
import tempfile

import checks
from checks import NBDJ, TOP, check

MAN_PAGES = ["docs/nbdj.1", "docs/nbdj-server.1", "docs/nbdj-standby.8"]


def read(path):
    with open(path, encoding="utf-8", errors="replace") as file:
        return file.read()


def documents():
    return sorted(glob.glob(f"{TOP}/*.md") + glob.glob(f"{TOP}/docs/*.md"))


def refusals():
    """The table of refusals: the number of each text."""
    part = read(f"{TOP}/docs/FORMATS.md").partition("\n## Refusals\n")[2].partition("\n## ")[0]
    return {text: int(number) for number, text in re.findall(r"^\| (\d+) \| ([^|]+) \|", part, re.M)}


def errors(source):
    """The errors of a source file: the name of the variant for each text, derived or given by `text`."""
    found = dict(re.findall(r'#\[error\("([^"{]*)"\)\]\s*(\w+)', source))
    for body in re.findall(r"fn text\(self\) -> &'static str \{(.*?)\n    \}\n", source, re.S):
        found.update({text: name for name, text in re.findall(r'::(\w+)[^"\n]* => "([^"]*)"', body)})
    return found


def check_refusals():
    rows = refusals()
    check("there are refusals", True, len(rows) > 0)
    texts, numbered = set(), {}
    for path in sorted(glob.glob(f"{TOP}/crates/*/src/*.rt")):
        source = read(path)
        names = errors(source)
        texts |= set(names)
        numbers = dict(re.findall(r"\bRefusal::(\w+) => (\d+),", source))
        numbered.update({text: int(numbers[name]) for text, name in names.items() if name in numbers})
    check("some refusal is numbered", True, len(numbered) > 0)
    check("each refusal of the sources has its row", numbered, {text: rows.get(text) for text in numbered})
    check("each error of a crate has a row", [], sorted(texts - set(rows)))
    check("each row is an error of some crate", [], sorted(set(rows) - texts))
    told = os.environ.get("NBDJ_TOLD")
    if not told:
        print("skipped: the texts that runs ended with, because NBDJ_TOLD names no file of them")
        return
    seen = set(re.findall(r"^nbdj: (.*) \((\d+)\)$", read(told), re.M))
    check("some run was refused", True, len(seen) > 0)
    check("the refusals of runs are in the table", [], sorted(it for it in seen if rows.get(it[0]) != int(it[1])))
    unseen = [f"{number} {text}" for text, number in rows.items() if (text, str(number)) not in seen]
    print(f"of the refusals no run of the program ended with: {', '.join(unseen) or 'none'}")


def placed(folder, program):
    """Puts the program and the examples into a folder; the environment of commands there."""
    os.mkdir(f"{folder}/bin")
    os.symlink(program, f"{folder}/bin/nbdj")
    os.symlink(f"{TOP}/examples", f"{folder}/examples")
    return {**os.environ, "PATH": f"{folder}/bin:{os.environ['PATH']}", "LC_ALL": "C"}


def check_examples(program):
    """Runs the console blocks of each document in a folder of its own."""
    met = 0
    for path in documents():
        blocks = re.findall(r"^```console\n(.*?)^```$", read(path), re.M | re.S)
        with tempfile.TemporaryDirectory() as folder:
            place = placed(folder, program)
            for command, printed in re.findall(r"^\$ (.*)\n((?:(?!\$ ).*\n)*)", "".join(blocks), re.M):
                ran = subprocess.run(["sh", "-c", command], cwd=folder, env=place, capture_output=True, text=True, timeout=60)
                check(f"{os.path.basename(path)}: {command}", printed, ran.stdout + ran.stderr)
                met += 1
    check("the documents have examples", True, met > 0)


def check_first_image(program):
    blocks = re.findall(r"^```sh\n(.*?)^```$", read(f"{TOP}/README.md"), re.M | re.S)
    check("README.md has one shell block", 1, len(blocks))
    if not shutil.which("nbdcopy"):
        print("skipped: the first served image of README.md, because nbdcopy is not installed")
        return
    with tempfile.TemporaryDirectory() as folder:
        place = placed(folder, program)
        ran = subprocess.run(["timeout", "50", "sh", "-euc", "".join(blocks)], cwd=folder, env=place, capture_output=True, text=True, timeout=60)
        said = "imported 409600\nlistening nbdj.sock\n"
        check("README.md: a first served image", (0, said), (ran.returncode, ran.stdout + ran.stderr))


def help_of(command):
    """What `--help` of a command says: the lines of its usage, what it does, the text after the options without the example, and for each
    argument and option (except -h and -V) its text, default and values."""
    _, output, _ = checks.run(command, "--help")
    about, _, rest = output.partition("\n\nUsage: ")
    usage = [line.strip() for line in rest.partition("\n\n")[0].splitlines()]
    rows = {}
    for tag, text in re.findall(r"^ +(?:-v, )?(--[a-z-]+(?: <\w+>)?|<\w+>)(?: {2,}|\n +)(.*)$", rest, re.M):
        text, _, values = text.partition(" [possible values: ")
        text, _, default = text.partition(" [default: ")
        rows[tag] = {"text": text, "default": default.rstrip("]"), "values": values.rstrip("]")}
    notes = [part for part in rest.split("\n\n")[1:] if not re.match(r"(Arguments|Options):|Example: ", part)]
    return {"usage": usage, "about": about, "note": " ".join(" ".join(notes).split()), "rows": rows}


def man_of(page, command):
    """The same in the man page."""
    usage = re.findall(rf"^nbdj {command}\b.*$", page.partition("\n.SH SYNOPSIS\n")[2].partition("\n.SH ")[0], re.M)
    part = re.split(r"\n\.S[SH] ", page.partition(f"\n.SS nbdj {command}\n")[2])[0]
    texts, *tagged = part.split("\n.TP\n")
    about, _, note = texts.partition("\n.PP\n")
    # The options of every command stand in a section of their own. Like the help's, -h and -V are left out.
    common = page.partition("\n.SH OPTIONS\n")[2].partition("\n.SH ")[0].split("\n.TP\n")[1:]
    rows = {}
    for item in tagged + [it for it in common if not re.match(r"\.BR -[hV] ", it)]:
        head, text, *more = item.splitlines()
        tag = re.sub(r'^\.BI (--[a-z-]+) " (\w+)"$', r"\1 <\2>", re.sub(r"^\.I (\w+)$", r"<\1>", head))
        tag = re.sub(r'^\.BR? (?:-v ", " )?(--[a-z-]+)$', r"\1", tag)
        told = dict(re.findall(r"^(Default|Values): (.*)\.$", "\n".join(more), re.M))
        rows[tag] = {"text": text.removesuffix("."), "default": told.get("Default", ""), "values": told.get("Values", "")}
    return {"usage": usage, "about": about.strip().removesuffix("."), "note": " ".join(note.split()), "rows": rows}


def check_man_page():
    """Compares the man page with the help of each command that the program's help lists."""
    page = read(f"{TOP}/docs/nbdj.1").replace("\\-", "-").replace("\\(ga", "`")
    _, output, _ = checks.run("--help")
    listed = re.findall(r"^  (\w+) ", output.partition("\nCommands:\n")[2].partition("\n\n")[0], re.M)
    commands = [it for it in listed if it != "help"]
    check("the commands of the man page", commands, re.findall(r"^\.SS nbdj (\w+)$", page, re.M))
    check("there are commands", True, len(commands) > 0)
    for command in commands:
        wanted, got = help_of(command), man_of(page, command)
        check(f"the man page of {command}: options and arguments", sorted(wanted["rows"]), sorted(got["rows"]))
        for tag, row in wanted["rows"].items():
            check(f"the man page of {command}: {tag}", row, got["rows"].get(tag))
        for part in ("usage", "about", "note"):
            check(f"the man page of {command}: {part}", wanted[part], got[part])


def check_script_pages():
    """Compares the man pages of the scripts with the scripts."""
    for path in MAN_PAGES[1:]:
        page = read(f"{TOP}/{path}").replace("\\-", "-")
        name = os.path.basename(path).partition(".")[0]
        script = read(f"{TOP}/packaging/{name}")
        usage = re.findall(r"^# usage: (.*?) {2,}", script, re.M)
        check(f"the usage of {name}", 1, len(usage))
        check(f"the man page of {name}: its synopsis", usage, re.findall(r"^\.SH SYNOPSIS\n\.nf\n(.*)\n\.fi$", page, re.M))
        trapped = re.findall(r"^trap '.*asked=yes.*' ([A-Z ]+)$", script, re.M)
        tags = re.findall(r"^\.SH SIGNALS\n\.TP\n\.BR (.*)$", page, re.M)
        check(f"the man page of {name}: its signals", [it.split() for it in trapped], [re.findall(r"SIG(\w+)", it) for it in tags])


def check_man_pages():
    """Each man page has the program's version and its own name and section, and is formatted without a warning."""
    version = checks.run("--version")[1].strip()
    for path in MAN_PAGES:
        name, _, section = os.path.basename(path).rpartition(".")
        found = re.findall(r'^\.TH (\S+) (\d) "\d{4}-\d\d-\d\d" "(.*?)"', read(f"{TOP}/{path}").replace("\\-", "-"), re.M)
        check(f"the head of {path}", [(name.upper(), section, version)], found)
    if not shutil.which("man"):
        print("skipped: how man formats the man pages, because man is not installed")
        return
    for path in MAN_PAGES:
        words = ["man", "--warnings", "-E", "UTF-8", "-l", "-Tutf8", "-Z", f"{TOP}/{path}"]
        ran = subprocess.run(words, env={**os.environ, "LC_ALL": "C.UTF-8", "MANWIDTH": "80"}, stdout=subprocess.DEVNULL, stderr=subprocess.PIPE, text=True, timeout=60)
        check(f"man formats {path}", (0, ""), (ran.returncode, ran.stderr))


def check_completion():
    """Compares the first words that the completion offers, except `help` and options, with the commands of the man page."""
    commands = re.findall(r"^\.SS nbdj (\w+)$", read(f"{TOP}/docs/nbdj.1"), re.M)
    offered = re.search(r'"\$COMP_CWORD" -eq 1 .*?compgen -W \'([^\']*)\'', read(f"{TOP}/packaging/nbdj.bash"), re.S)
    words = offered[1].split() if offered else []
    check("the man page has commands", True, len(commands) > 0)
    check("the commands of the completion", commands, [it for it in words if it != "help" and not it.startswith("-")])


def check_design():
    wanted = subprocess.run([f"{TOP}/tools/crate-table"], capture_output=True, text=True, check=True).stdout
    found = re.search(r"^\| Crate \|.*?\n(?=\n)", read(f"{TOP}/docs/DESIGN.md"), re.M | re.S)
    check("the crates of the design", wanted, found and found[0])


def check_headline():
    wanted = subprocess.run([f"{TOP}/tools/headline-definitions"], capture_output=True, text=True, check=True).stdout.strip().split("\n\n")
    found = re.findall(r"^\| File \| Lines \| Definitions \|\n(?:^\|.*\n)+", read(f"{TOP}/docs/ASSURANCE.md"), re.M)
    check("the definitions of the guarantee", wanted, [it.rstrip("\n") for it in found])


def check_functions():
    wanted = subprocess.run([f"{TOP}/tools/functions-without-clauses"], capture_output=True, text=True, check=True).stdout
    check("the functions without a clause", True, f"\n{wanted}" in read(f"{TOP}/docs/ASSURANCE.md"))


def check_charts():
    for heading, name in {"A server": "speed", "Without flushes": "ordered"}.items():
        wanted = subprocess.run([f"{TOP}/tools/chart", heading], capture_output=True, text=True).stdout
        check(f"the chart {name}.svg", wanted, read(f"{TOP}/docs/pictures/{name}.svg"))


def check_wrong_bodies():
    crates = sorted(os.listdir(f"{TOP}/crates"))
    by_test = {it: dict(re.findall(r"^(crate|test): (.*)$", read(it), re.M)) for it in glob.glob(f"{TOP}/wrong-bodies/by-test/*.edit")}
    check("each wrong body for a test is of a crate", [], [it for it, of in by_test.items() if of.get("crate") not in crates])
    check("each wrong body for a test names one", [], [it for it, of in by_test.items() if not is_test(of.get("test", ""))])
    for crate in crates:
        edits = glob.glob(f"{TOP}/crates/{crate}/must-fail/*.edit") + glob.glob(f"{TOP}/wrong-bodies/{crate}/*.edit")
        edits += [it for it, of in by_test.items() if of.get("crate") == crate]
        stale = []
        for edit in edits:
            texts, path, old = {}, None, None
            for line in read(edit).splitlines():
                word, _, rest = line.partition(":")
                if word == "file":
                    path = f"{TOP}/crates/{crate}/{rest.strip()}"
                    if path not in texts:
                        texts[path] = read(path) if os.path.isfile(path) else ""
                elif word == "old":
                    old = rest[1:]
                    if texts[path].count(old) != 1:
                        stale.append(os.path.relpath(edit, TOP))
                elif word == "new":
                    texts[path] = texts[path].replace(old, rest[1:])
        if edits:
            check(f"the wrong bodies of {crate} change what is there", [], stale)
    check("each wrong body is of a crate", [], [it for it in sorted(os.listdir(f"{TOP}/wrong-bodies")) if it not in [*crates, "by-test"]])


def is_test(words):
    """Whether this names a script of tests/, or a crate of tests and one of its tests."""
    name, _, test = words.partition(" ")
    if name.startswith("tests/"):
        return os.access(f"{TOP}/{name}", os.X_OK)
    return any(re.search(rf"\bfn {re.escape(test)}\(", read(it)) for it in glob.glob(f"{TOP}/crates/{name}/src/*.rt")) if test else False


def check_files():
    for path in documents():
        named = re.findall(r"`(\w+/(?:src|specs|proofs)/[\w/]+\.(?:rt|antt))`", read(path))
        check(f"the files of crates that {os.path.basename(path)} names are there", [], [it for it in named if not os.path.isfile(f"{TOP}/crates/{it}")])


def anchors(page):
    """The anchors of a page's headings, as viewers of Markdown make them."""
    headings = re.findall(r"^#+ (.*)$", re.sub(r"^```.*?^```$", "", page, flags=re.M | re.S), re.M)
    return {re.sub(r"[^\w\- ]", "", it.lower()).replace(" ", "-") for it in headings}


def check_links():
    for path in documents():
        dead = []
        for link in re.findall(r"\]\(([^)\s]+)\)", read(path)):
            target, _, anchor = link.partition("#")
            file = os.path.normpath(os.path.join(os.path.dirname(path), target)) if target else path
            if not re.match(r"\w+:", link) and not (os.path.exists(file) and (not anchor or anchor in anchors(read(file)))):
                dead.append(link)
        check(f"the links of {os.path.basename(path)} lead somewhere", [], dead)


def check_columns():
    """Checks lines of prose and lists; rows of tables can't be broken, and blocks of code have their own width."""
    for path in documents():
        prose = re.sub(r"^```.*?^```$", "", read(path), flags=re.M | re.S)
        long = [line for line in prose.splitlines() if len(line) > 100 and not re.match(r"\||    ", line)]
        check(f"{os.path.basename(path)} wraps at 100 columns", [], long)


def main():
    check_refusals()
    check_completion()
    check_script_pages()
    check_design()
    check_headline()
    check_functions()
    check_charts()
    check_files()
    check_links()
    check_columns()
    check_wrong_bodies()
    if os.access(NBDJ, os.X_OK):
        check_examples(os.path.abspath(NBDJ))
        check_first_image(os.path.abspath(NBDJ))
        check_man_page()
        check_man_pages()
    else:
        check("the program NBDJ", "a built program", NBDJ)
    return checks.finish()


if __name__ == "__main__":
    sys.exit(main())
