#!/usr/bin/env python3
"""pages: compares what the help texts, the man pages and the documents say.

It names what one has and another lacks.

    tests/pages.py

It compares the commands, their usage, their options with values, choices and defaults, the codes of refusals
and flaws, the order of these codes, the HTTP statuses, the exit statuses, the lines of `querier serve` about
faults, the lines of `blocktool` without a code, and what shells complete. It runs the commands of the man
pages that begin with `$`, and compares what they print; of the other examples it looks at the options. It
takes each option and each code out of one text at a time, and wants this to be noticed. The programs are
those that QUERIER, AUDITOR, EXPLAIN and BLOCKTOOL name, or else are built where their crates stand (RT).
mandoc and man are asked about the man pages if they are there. Exit status 0 if all texts agree.
"""
import os
import re
import shutil
import subprocess
import sys
import tempfile

sys.dont_write_bytecode = True
from lib import CRATES, TOP, find_program  # noqa: E402

INNER = {
    "querier": ["select", "check", "serve", "journal", "backup", "demo"],
    "blocktool": [
        "from-prometheus", "from-openmetrics", "from-rows", "to-openmetrics", "rewrite", "add", "join",
        "list",
    ],
}
COMMANDS = [f"{name} {inner}".strip() for name in CRATES for inner in ["", *INNER.get(name, [])]]
# what is asked with an option has a help text, a usage and options of its own
STORES = {"auditor --store": ["--store", "."], "auditor --mark": ["--mark"]}
HELPS = [*COMMANDS, *STORES]
PAGES = ["querier.1", "auditor.1", "explain.1", "blocktool.1", "fuzzledge-block.5"]
DOCUMENTS = ["SELECTORS.md", "FORMATS.md", "HTTP.md", "AUDITING.md", "OPERATING.md", "IMPORTING.md"]
CODE = r"\b[BCEFHILMOPQTVWX]\d{1,2}\b"
# what stands in a line of blocktool, and how its man page shows it
SHOWN = {"count": "N", "directory": "DIR", "data": "DIR", "end": "T"}
# codes that only callers of the crates meet, and no user of a program
OF_CALLS = {"A1", "A2", "E7", "E8", "O4", "S1", "V1", "V2", "V3"}


def read(*path):
    with open(os.path.join(TOP, *path), encoding="utf-8") as file:
        return file.read()


# what a text has


def codes(text):
    """The codes of a text, in their order; `I1 to I3` is three of them."""
    found = []
    for first, last in re.findall(f"`?({CODE})`?(?: to `?({CODE})`?)?", text):
        numbers = range(int(first[1:]), int((last or first)[1:]) + 1)
        found += [f"{first[0]}{number}" for number in numbers]
    return found


def between(text, begin, end):
    """What stands between two texts, or after the first if the second is not there; nothing if neither is."""
    return text.split(begin, 1)[1].split(end, 1)[0] if begin in text else ""


def whole_codes(text):
    """The codes between back quotes, of any letter."""
    found = re.findall(r"`([A-Z]\d{1,2})`(?: to `([A-Z]\d{1,2})`)?", text)
    return {
        f"{first[0]}{n}" for first, last in found for n in range(int(first[1:]), int((last or first)[1:]) + 1)
    }


def exit_statuses(text):
    """The exit statuses that a sentence lists, as `0 done; 1 refused`."""
    return set(re.findall(r"(?:^|[:;])\s*([0-9]) ", text))


def option_lines(text):
    """The lines of a help text that explain options: name, value, what follows."""
    return re.findall(r"^ +(?:-\w, +)?--([a-z-]+)(?: <(\w+)>)?(.*)", text, re.M)


def help_options(text):
    """The options of a help text: name, value, default."""
    return {(name, value, between(rest, "[default: ", "]")) for name, value, rest in option_lines(text)}


def help_choices(text):
    """The values that options of a help text may have: name, value."""
    choices = {name: between(rest, "[possible values: ", "]") for name, _, rest in option_lines(text)}
    return {(name, choice) for name in choices for choice in choices[name].split(", ") if choice}


def help_usage(text, command):
    """The words of the usage of a help text: the name of an option, a value, and whether they may be left
    out."""
    found = re.search(r"^Usage: \w+(?: [a-z-]+)? ?(.*)$", text, re.M)
    line = found[1] if found else ""
    needed = re.findall(r"--([a-z-]+)", line + command)
    words = {
        (name, value, name not in needed)
        for name, value, _ in option_lines(text)
        if name not in ("help", "version")
    }
    others = re.findall(r"([\[<])([A-Z]+)[\]>](\.\.\.)?", re.sub(r"\[OPTIONS\]|--[a-z-]+ <\w+>", "", line))
    return words | {("", value + dots, left == "[") for left, value, dots in others}


def section(page, title):
    """A section of a man page."""
    return between(page, f"\n.Sh {title}\n", "\n.Sh ")


def subsection(text, title):
    """What stands below a heading in a section of a man page, or, without a title, above all of them."""
    return between(text, f"\n.Ss {title}\n", "\n.Ss ") if title else text.split("\n.Ss ")[0]


def man_items(text):
    """The codes that lists of a man page explain, in their order."""
    return codes("\n".join(re.findall(r"^\.It Cm (.*)", text, re.M)))


def man_statuses(page):
    return set(re.findall(r"^\.It (\d)$", section(page, "EXIT STATUS"), re.M))


def man_option_items(text):
    """The options that lists of a man page explain: name, value, what is said of them."""
    for item in re.split(r"^\.It ", text, flags=re.M)[1:]:
        option = re.match(r"Fl (?:\w , )?-([a-z-]+)(?: Ar (\w+))?$", item.split("\n")[0])
        if option:
            yield option[1], option[2] or "", item


def man_options(text):
    """The options that lists of a man page explain: name, value, default."""
    return {
        (name, value, between(item, ".Pq default: ", "\n")) for name, value, item in man_option_items(text)
    }


def man_choices(text):
    """The values that these options may have: name, value."""
    return {
        (name, choice)
        for name, _, item in man_option_items(text)
        for choice in re.findall(r"^\.Cm (\w+)", item, re.M)
    }


def man_usage(page, command):
    """The words of a synopsis of a man page: the name of an option, a value, and whether they may be left
    out."""
    begin = ".Fl " if command in CRATES or command in STORES else f".Cm {command.split()[1]}\n"
    asked = f".Fl {command.split()[1][1:]}" if command in STORES else ""
    for usage in section(page, "SYNOPSIS").split(".Nm\n")[1:]:
        if usage.startswith(begin) and asked in usage:
            lines = re.findall(r"^\.(Op )?(?:Fl -([a-z-]+)(?: Ar (\w+))?|Ar (\w+)( \.\.\.)?)$", usage, re.M)
            return {
                (name, value or word + dots.strip(), bool(left)) for left, name, value, word, dots in lines
            }
    return set()


def usage(document, command):
    """The same of the first usage of a command in a document, which is a line of code or stands between back
    quotes."""
    place = r"[A-Z]+(?:\.\.\.| (?=[A-Z])|(?=[`\n]))"
    found = re.search(rf"(?:^    |`){command} ((?:\[--|--[a-z-]+ [A-Z]|{place})[^`\n<]*)", document, re.M)
    words = re.findall(r"(\[?)(?:--([a-z-]+)(?: ([A-Z]+))?|([A-Z]+))\]?(\.\.\.)?", found[1] if found else "")
    return {(name, value or word + dots, bool(left)) for left, name, value, word, dots in words}


def table_choices(document, title):
    """The options that begin rows of the tables below a heading of a document, each with its choices, the
    default first."""
    found = {}
    for row in rows(document, title):
        for word in re.findall("`([^`]*)`", row[0]):
            if word.startswith("--"):
                name, choice = word[2:].split()
                found[name] = []
            else:
                choice = word
            found[name] += [choice] if choice.islower() else []
    return found


def rows(document, title):
    """The rows of the tables below a heading of a document, each a list of cells, without their titles."""
    below = re.split("^#", between(document, f"\n## {title}\n", "\n## "), flags=re.M)[0]
    cells = [
        [cell.strip() for cell in row.strip("|").split("|")] for row in re.findall(r"^\|.*\|$", below, re.M)
    ]
    return [row for row in cells if not set(row[0]) <= {"-"}]


def document_codes(document, title):
    """The codes that begin a row of these tables, in their order."""
    return [row[0].strip("`") for row in rows(document, title) if re.fullmatch(f"`{CODE}`", row[0])]


def told_codes():
    """The codes that the sources tell, whether a program does or none yet."""
    crates = os.path.join(TOP, "crates")
    paths = [
        os.path.join(folder, file)
        for crate in os.listdir(crates) if not crate.endswith("_tests") and crate != "case_files"
        for folder, _, files in os.walk(os.path.join(crates, crate, "src"))
        for file in files
    ]
    return {code for path in paths for code in re.findall(r'=> "([A-Z]\d{1,2})"', read(path))}


def page_of(texts, command):
    """The man page of a command."""
    return texts[f"{command.split()[0]}.1"]


def described(texts, command):
    """What a man page says of one command."""
    text = "\n" + section(page_of(texts, command), "DESCRIPTION")
    return subsection(text, command) if command.split()[0] in INNER else text


# the documents that say how a command is used
USAGES = {
    "querier select": ["README.md"],
    "querier check": ["README.md"],
    "querier serve": ["README.md"],
    "querier backup": ["OPERATING.md"],
    "auditor": ["AUDITING.md"],
    "auditor --store": [],
    "auditor --mark": [],
    "explain": [],
    **{f"blocktool {inner}": ["IMPORTING.md"] for inner in INNER["blocktool"]},
}


def subjects(texts):
    """What the texts have of each subject: sets, or lists if the order counts."""
    yield from subjects_of_words(texts)
    yield from subjects_of_blocktool(texts)
    yield from subjects_of_codes(texts)


def subjects_of_words(texts):
    """Commands, usage, options, and which page names which."""
    for name in INNER:
        yield f"commands of {name}", {
            "help": set(re.findall(r"^  ([\w-]+)  ", between(texts[name], "Commands:", "Options:"), re.M)),
            "man": set(re.findall(rf"^\.Ss {name} ([\w-]+)$", texts[f"{name}.1"], re.M)),
            "synopsis": set(re.findall(r"^\.Cm ([\w-]+)$", section(texts[f"{name}.1"], "SYNOPSIS"), re.M)),
            "this script": {*INNER[name], "help"},
        }
    for command in COMMANDS:
        text, page = texts[command], described(texts, command)
        yield f"options of {command}", {"help": help_options(text), "man": man_options(page)}
        if help_choices(text):
            yield f"choices of {command}", {"help": help_choices(text), "man": man_choices(page)}
    for command, documents in USAGES.items():
        yield f"usage of {command}", {
            "help": help_usage(texts[command], command),
            "man": man_usage(page_of(texts, command), command),
            **{document: usage(texts[document], command) for document in documents},
        }
    kept = section(texts["auditor.1"], "A KEPT STORE")
    others = {name: help_options(texts[name]) for name in ("auditor", *STORES)}
    yield "options of a kept store", {
        "help": {option for name in STORES for option in others[name]} - others["auditor"],
        "man": man_options(kept)
        | {(name, value, "") for name, value in re.findall(r"^\.Fl -([a-z]+) Ar (\w+)$", kept, re.M)},
    }
    yield "help and version of the auditor", {
        name: {option for option, _, _ in others[name]} & {"help", "version"} for name in others
    }
    for page in PAGES:
        yield f"what {page} names", {
            "see also": set(re.findall(r"^\.Xr (\S+ \d)", section(texts[page], "SEE ALSO"), re.M)),
            "the other pages": {other.replace(".", " ") for other in PAGES if other != page},
        }


def subjects_of_blocktool(texts):
    """What there is of blocktool alone."""
    page, importing, formats = (texts[text] for text in ("blocktool.1", "IMPORTING.md", "FORMATS.md"))
    refusals = section(page, "REFUSALS")
    prometheus, text, own = (
        subsection(refusals, title) for title in ("Blocks of Prometheus", "Text", "Blocks of Fuzzledge")
    )
    importer = texts["blocktool from-prometheus"]
    table = table_choices(importing, "What is kept")

    yield "what is kept", {
        "help": {name for name, _, _ in help_options(importer)} - {"help", "into"},
        "IMPORTING": set(table),
    }
    yield "choices of what is kept", {
        "help": help_choices(importer),
        "IMPORTING": {(name, choice) for name in table for choice in table[name]},
    }
    yield "first choices of what is kept", {
        "help": {
            (name, default) for name, _, default in help_options(importer) if len(table.get(name, [])) > 1
        },
        "IMPORTING": {(name, choices[0]) for name, choices in table.items() if len(choices) > 1},
    }
    yield "codes of blocks of Prometheus", {
        "help": set(codes(between(importer, "is refused with", "docs/"))),
        "man": set(man_items(prometheus)),
        "IMPORTING": set(codes(between(importing, "\n## What is read\n", "\n## "))),
    }
    yield "codes of the data of a chunk", {
        "IMPORTING": document_codes(importing, "What is read"),
        "man": [code for code in man_items(prometheus) if code[0] == "X"],
        "FORMATS": codes(between(formats, "\n## Chunks that Prometheus wrote\n", "\n## ")),
    }
    yield "codes of a text of metrics", {
        "FORMATS": document_codes(formats, "Text of metrics"),
        "man": man_items(text),
    }
    yield "codes of a text of metrics, in any order", {
        "help": set(codes(between(texts["blocktool from-openmetrics"], "is refused, with", "docs/"))),
        "man": set(man_items(text)),
        "IMPORTING": set(codes(between(importing, "\n## OpenMetrics text\n", "\n## "))),
    }
    yield "codes of blocks that blocktool reads", {
        "help of rewrite": codes(between(texts["blocktool rewrite"], "as by `querier check`:", "\n")),
        "help of list": codes(between(texts["blocktool list"], "as by `querier check`:", "\n")),
        "help of add": codes(between(texts["blocktool add"], "as by `querier check`:", "\n")),
        "help of check": checked_codes(texts),
        "man": man_items(own),
        "IMPORTING": codes(between(importing, "\n## Blocks of Fuzzledge\n", "\n## ")),
    }
    yield "codes of values", {
        "source": set(re.findall(r"refused (V\d)", texts["fault.rt"])),
        "man": set(man_items(subsection(refusals, "Values"))),
        "IMPORTING": set(document_codes(importing, "Doubles")),
    }
    yield "the code of a block of Prometheus", {
        "IMPORTING": codes(importing.split("\n## ")[0]),
        "FORMATS": [row[0].strip("`") for row in rows(formats, "Chunks") if "blocktool" in row[1]],
        "OPERATING": [
            row[0].strip("`")
            for row in rows(texts["OPERATING.md"], "What a refusal means")
            if "blocktool" in row[2]
        ],
        "help": codes(between(texts["querier check"], "writes are refused with", ",")),
        "man": codes(between(texts["fuzzledge-block.5"], "that Prometheus wrote is refused with", ",")),
    }
    yield "codes of a store", {
        "help of join": codes_of_stores(between(texts["blocktool join"], "as by `querier serve`:", "\n")),
        "help of add": codes_of_stores(between(texts["blocktool add"], "\n`querier serve`:", "\n")),
        "man": codes_of_stores(
            "\n".join(re.findall(r"^\.It Cm (J.*)", subsection(refusals, "Stores"), re.M))
        ),
        "man of querier": codes_of_stores("\n".join(re.findall(r"^\.It Cm (J.*)", texts["querier.1"], re.M))),
        "OPERATING": codes_of_stores(
            "\n".join(row[0] for row in rows(texts["OPERATING.md"], "What a refusal means"))
        ),
    }
    lines = re.findall('"(refused: [^"]*)"', texts["fault.rt"])
    yield "lines of blocktool without a code", {
        "source": {re.sub(r"{(\w+)}", lambda name: SHOWN[name[1]], line) for line in lines},
        "man": set(re.findall(r"^\.It Li (refused: .*)$", refusals, re.M)),
    }
    for command in ["", *INNER["blocktool"]]:
        yield f"exit statuses of {f'blocktool {command}'.strip()}", {
            "help": exit_statuses(between(texts[f"blocktool {command}".strip()], "Exit status", "\0")),
            "man": man_statuses(page),
            "IMPORTING": exit_statuses(between(importing, "Exit status", "\0")),
        }


def codes_of_stores(text):
    """The codes of a journal, in their order; `J8 to J14` is seven of them, `J3 , J4` two."""
    found = []
    for first, last in re.findall(r"\bJ(\d+)\b`?(?: to `?J(\d+))?", text):
        found += [f"J{n}" for n in range(int(first), int(last or first) + 1)]
    return found


def checked_codes(texts):
    """The codes that the help of `querier check` explains, in their order."""
    return codes("\n".join(re.findall(f"^  ({CODE}(?: to {CODE})?)", texts["querier check"], re.M)))


def subjects_of_codes(texts):
    """The codes of the other programs, and how they end."""
    querier, auditor, block = (texts[page] for page in ("querier.1", "auditor.1", "fuzzledge-block.5"))
    selectors, formats, http, auditing, operating, _ = (texts[document] for document in DOCUMENTS)
    readme = texts["README.md"]
    refusals = section(querier, "REFUSALS")
    requests = subsection(refusals, "Refusals of requests")
    files = section(block, "DESCRIPTION")

    asked = codes(between(texts["querier select"], "Refusals, the first", "Exit status"))
    yield "refusals of a selection", {"help": asked, "man": man_items(subsection(refusals, ""))}
    yield "refusals of a selector", {
        "help": [code for code in asked if code[0] == "M"],
        "SELECTORS": document_codes(selectors, "Refusals"),
    }
    for title, file in (
        ("Index", "index"), ("Chunks", "chunks/000001"), ("Tombstones", "tombstones"),
        ("Numbers and checksums", "Numbers"),
    ):
        yield f"codes of {file}", {
            "FORMATS": document_codes(formats, title),
            "man": man_items(subsection("\n" + files, file)),
        }
    whole = "\n".join(row[1] for row in rows(formats, "A whole block"))
    yield "the last codes of a whole block", {
        "FORMATS": [code for code in codes(whole) if code in ("T5", "B1")],
        "man": man_items(subsection(files, "A whole block")),
    }
    yield "codes of blocks", {
        "help": set(checked_codes(texts)),
        "FORMATS": {code for code in re.findall(f"`({CODE})`", formats) if code[0] in "BICT"},
        "man": {code for code in man_items(files) if code[0] != "W"},
    }
    answers = [row for row in rows(http, "Refusals") if row[0].startswith("`H")]
    yield "refusals of requests", {
        "HTTP": [(row[0].strip("`"), row[1].split()[0]) for row in answers],
        "man": re.findall(r"^\.It Cm (H\d+) No (\d+)$", requests, re.M),
    }
    yield "refusals by options of querier serve", {
        "help": set(codes(texts["querier serve"])),
        "man": set(codes(described(texts, "querier serve"))),
    }
    yield "refusals of a copy", {
        "help": [code for code in codes(texts["querier backup"]) if code[0] == "O"],
        "man": man_items(subsection(refusals, "Refusals of a copy")),
    }
    yield "codes of a store that is copied", {
        "help": codes_of_stores(between(texts["querier backup"], "Refusals:", "Exit status")),
        "man": codes_of_stores("\n".join(re.findall(r"^\.It Cm (J.*)", querier, re.M))),
    }
    yield "refusals of changes", {
        "HTTP": [code for row in answers if row[0] == "`H9`" for code in codes(row[2])],
        "man": [code for code in man_items(requests) if code[0] == "E"],
    }
    explained = codes("\n".join(row[0] for row in rows(operating, "What a refusal means")))
    yield "refusals that operators see", {
        "help": set(asked)
        | {code for code in codes(texts["querier serve"]) if code[0] not in "HE"}
        | set(codes(texts["querier backup"])),
        "OPERATING": {code for code in explained if code[0] not in "HE"},
    }
    yield "refusals that operators hear of", {
        "HTTP": {code for row in answers for code in codes(row[0] + row[2]) if code[0] in "HE"},
        "OPERATING": {code for code in explained if code[0] in "HE"},
    }
    yield "flaws", {
        "AUDITING": document_codes(auditing, "Which flaw is reported"),
        "man": man_items(section(auditor, "OUTPUT")),
    }
    yield "flaws, in any order", {
        "AUDITING": set(document_codes(auditing, "Which flaw is reported")),
        "help": {code for code in codes(texts["auditor"]) if code[0] == "F"},
    }
    yield "files that the auditor refuses", {
        "help": set(codes(between(texts["auditor"], "those of no block:", "\n"))),
        "man": set(codes(between(auditor, "\n.Xr fuzzledge-block 5 :\n", ".\n"))),
        "AUDITING": set(codes(between(auditing, "the store's code:", "`I11` to"))),
    }
    inner = [f"querier {name}" for name in ("select", "check", "serve", "backup")]
    for command in (*inner, "auditor", "explain"):
        yield f"exit statuses of {command}", {
            "help": exit_statuses(between(texts[command], "Exit status", "\0")),
            "man": man_statuses(page_of(texts, command)),
        }
    told = re.sub("`.*?`", "", between(auditing, "\nThe status is", "\n"))
    yield "exit statuses in documents", {
        "README": set(re.findall(r"^\| (\d) \|", between(readme, "| Status |", "\n\n"), re.M)),
        "AUDITING": set(re.findall(r"\b\d\b", told)),
        "help": exit_statuses(between(texts["querier"], "Exit status", "\0")),
    }
    yield "lines about faults", {
        "man": set(re.findall(r"^\.It (.*)", section(querier, "DIAGNOSTICS"), re.M)),
        "OPERATING": {
            line
            for row in rows(operating, "Lines on standard error")
            for line in re.findall("`([a-z][^`]+)`", row[0])
        },
    }


def complaints(texts):
    """What one text has and another lacks."""
    for name, things in subjects(texts):
        agree = True
        for one in things:
            if not things[one]:
                yield f"{name}: nothing was found in {one}"
            for other in things:
                for thing in sorted(set(things[one]) - set(things[other])):
                    agree = False
                    yield f"{name}: {one} has {thing}, {other} lacks it"
        first, *others = things.values()
        if agree and any(other != first for other in others):
            yield f"{name}: the orders differ: {things}"


# whether a lack would be noticed


def words_to_miss(name, text):
    """The codes and options that a text has in its lists and tables."""
    if name in STORES:
        return {f"--{option}" for option, _, _ in help_options(text)}
    if name in COMMANDS:
        listed = re.sub(
            rf"(?:refused|with|of no path) \(?{CODE}|{CODE} at \d", "", text
        )  # without the examples
        return set(re.findall(CODE, listed)) | {f"--{option}" for option, _, _ in help_options(text)}
    if name in PAGES:
        lists = "\n".join(re.findall(r"^\.It (?:Cm|Fl) .*", text, re.M))
        return set(re.findall(CODE, lists)) | {f"-{option}" for option, _, _ in man_options(text)}
    words = set(re.findall(f"`({CODE})`" if name == "IMPORTING.md" else rf"^\| `({CODE})` \|", text, re.M))
    used = {option for command in USAGES if name in USAGES[command] for option, _, _ in usage(text, command)}
    return words | {f"--{option}" for option in used if option}


def lists_without_one(name, text):
    """What stands in a list, a table, a usage or among the other pages of a text, each with the text without
    it."""
    if name in HELPS:
        item = re.compile(r"^ +(?:-\w, +)?--[a-z-]+.*\n", re.M)
    elif name in PAGES:
        item = re.compile(
            r"^\.It (?:Fl|Cm) .*\n|^\.(?:Op )?Fl -[a-z-]+ Ar \w+\n|^\.Op (?!Ar COMMAND).*\n", re.M
        )
        also = text.index("\n.Sh SEE ALSO\n")
        for one in re.compile(r"^\.Xr .*\n", re.M).finditer(text, also):
            yield one[0].strip(), text[: one.start()] + text[one.end() :]
        # behind the synopsis an option that no list explains is in a sentence
        told = text.index("\n.Sh DESCRIPTION\n")
    else:
        item = re.compile(rf"^\| `{CODE}` \|.*\n|\[--[a-z-]+(?: [A-Z]+)?\] |\[[A-Z]+\](?:\.\.\.)?", re.M)
    for one in item.finditer(text):
        if name not in PAGES or one.start() < told or one[0].startswith(".It "):
            yield one[0].strip(), text[: one.start()] + text[one.end() :]


def missed(texts):
    """What can be taken out of one text without a complaint, and how much was tried: words, wherever they
    stand in it, and single places of lists."""
    tried, unnoticed = 0, []
    for name, text in texts.items():
        words = sorted(words_to_miss(name, text))
        less = [(word, re.sub(rf"(?<![\w-]){re.escape(word)}(?![\w-])", "", text)) for word in words]
        for word, without in [*less, *lists_without_one(name, text)]:
            tried += 1
            if not any(complaints({**texts, name: without})):
                unnoticed.append(f"{word} can be taken out of {name}, and nothing is noticed")
    return tried, unnoticed


# the examples


def shown(page):
    """The texts that a man page shows as they are."""
    for escape, letter in ((r"\(aq", "'"), (r"\-", "-"), (r"\e", "\\")):
        page = page.replace(escape, letter)
    return re.findall(r"^\.Bd -literal.*\n((?:.*\n)*?)\.Ed$", page, re.M)


def examples(page):
    """The commands of a man page, each with what it prints."""
    for text in shown(page):
        yield from re.findall(r"^\$ (.*)\n((?:(?!\$ ).*\n)*)", text, re.M)


def options_used(line):
    """The options in a line of commands, each with its command."""
    for part in line.split(" | "):
        name, inner, *_ = [*part.removeprefix("$ ").split(), "", ""]
        if name in CRATES:
            command = f"{name} {inner}" if name in INNER else name
            yield from ((command, option) for option in re.findall(r" --([a-z-]+)", part))


def bad_examples(texts):
    """What is wrong with examples that are not run: a help text ends in one, and each option is one of its
    command."""
    lines = [line for page in PAGES for text in shown(texts[page]) for line in text.split("\n")]
    for command in COMMANDS:
        example = re.search(r"\n\nExample: (.*)\n$", texts[command])
        if not example:
            yield f"{command}: its help ends in no example"
        elif command.split()[0] not in example[1]:
            yield f"{command}: the example of its help names another program"
        else:
            lines.append(example[1])
    for command, option in (used for line in lines for used in options_used(line)):
        if option not in [name for name, _, _ in help_options(texts.get(command, ""))]:
            yield f"{command}: an example has --{option}, which is no option"


# what shells complete


def with_choices(options, choices):
    """Options, and each again with each of its choices."""
    return set(options) | {f"{option} {choice}" for option, texts in choices for choice in texts.split()}


def completed(folder, name):
    """The options and choices that each shell completes of a program, by its commands."""
    bash, zsh, fish = (
        read(folder, *path) for path in (["bash", name], ["zsh", "_" + name], ["fish", name + ".fish"])
    )
    for inner in INNER.get(name, [""]):
        words = between(bash, f"    {inner}) words='" if inner else " words='", "'").split()
        block = between(zsh, f"    {inner})\n", ";;") if inner else zsh
        begin = f"__fish_seen_subcommand_from {inner}'" if inner else ""
        lines = [line for line in fish.split("\n") if begin in line]
        yield inner, {
            "bash": with_choices(
                (word[2:] for word in words if word.startswith("--")),
                re.findall(rf"^    '{inner} --([a-z-]+)'\).*compgen -W '([a-z ]+)'", bash, re.M),
            ),
            "zsh": with_choices(
                re.findall(r"^ +(?:_arguments -s )?'(?:\(-\w )?--([a-z-]+)", block, re.M),
                re.findall(r"^ +'--([a-z-]+)=.*:\(([a-z ]+)\)'", block, re.M),
            ),
            "fish": with_choices(
                (option for line in lines for option in re.findall(r" -l ([a-z-]+)", line)),
                (found for line in lines for found in re.findall(r" -l ([a-z-]+) .*-a '([a-z ]+)'", line)),
            ),
        }


def bad_completions(texts, programs):
    """The options and choices of help texts that a shell does not complete, and others that it does."""
    with tempfile.TemporaryDirectory() as folder:
        named = []
        for name, program in programs.items():
            named.append(os.path.join(folder, name))
            os.symlink(program, named[-1])
        subprocess.run([os.path.join(TOP, "packaging", "completions"), folder, *named], check=True)
        for name in programs:
            for inner, shells in completed(folder, name):
                command = f"{name} {inner}".strip()
                wanted = with_choices(
                    (option for option, _, _ in help_options(texts[command])), help_choices(texts[command])
                )
                for shell, found in shells.items():
                    if found != wanted:
                        has = f"and its help has {sorted(wanted)}"
                        yield f"{shell} completes {sorted(found)} of {command}, {has}"


def run_examples(texts, programs):
    """How many commands were run, and those that print something else than their page says."""
    count, wrong = 0, []
    with tempfile.TemporaryDirectory() as folder, tempfile.TemporaryDirectory() as place:
        for name, program in programs.items():
            os.symlink(program, os.path.join(folder, name))
        os.symlink(os.path.join(TOP, "examples"), os.path.join(place, "examples"))
        path = folder + os.pathsep + os.environ["PATH"]
        for page in PAGES:
            for command, wanted in examples(texts[page]):
                ran = subprocess.run(
                    command, shell=True, cwd=place, env={**os.environ, "PATH": path}, capture_output=True,
                    text=True,
                )
                count += 1
                if ran.stdout + ran.stderr != wanted:
                    wrong.append(
                        f"{page}: {command}\n  prints {ran.stdout + ran.stderr!r}\n  and not {wanted!r}"
                    )
    return count, wrong


def judged_by_readers():
    """How many man pages were read by how many readers, and what those say against them."""
    count, wrong = 0, []
    for reader in (["mandoc", "-Tlint", "-Wwarning"], ["man", "--warnings", "-E", "UTF-8", "-l", "-Tutf8"]):
        if not shutil.which(reader[0]):
            print(f"{reader[0]} is not here: it was not asked")
            continue
        for page in sorted(os.listdir(os.path.join(TOP, "man"))):
            ran = subprocess.run(reader + [os.path.join(TOP, "man", page)], capture_output=True, text=True)
            count += 1
            said = ran.stderr if reader[0] == "man" else ran.stdout + ran.stderr
            if said or ran.returncode != 0 or reader[0] == "man" and len(ran.stdout) < 1000:
                wrong.append(f"{reader[0]} of {page}: status {ran.returncode}: {said}")
    return count, wrong


def main():
    programs = {name: find_program(name) for name in CRATES}
    texts = {page: read("man", page) for page in PAGES}
    texts |= {document: read("docs", document) for document in DOCUMENTS} | {"README.md": read("README.md")}
    for command in COMMANDS:
        name, *words = command.split()
        words = [programs[name], *words]
        texts[command] = subprocess.run([*words, "--help"], check=True, capture_output=True, text=True).stdout
    for command, words in STORES.items():
        words = [programs[command.split()[0]], *words, "--help"]
        texts[command] = subprocess.run(words, capture_output=True, text=True).stdout
    texts["fault.rt"] = read("crates", "blocktool", "src", "fault.rt")
    documented = {code for text in (*DOCUMENTS, "README.md") for code in whole_codes(texts[text])}
    wrong = [
        f"{code} is told by a source and by no document"
        for code in sorted(told_codes() - documented - OF_CALLS)
    ]
    wrong += [*complaints(texts), *bad_examples(texts), *bad_completions(texts, programs)]
    print(f"{len(list(subjects(texts)))} subjects were compared")
    if not wrong:
        tried, wrong = missed(texts)
        print(f"{tried} things were taken out of one text each")
    ran, others = run_examples(texts, programs)
    print(f"{ran} commands of the man pages were run")
    asked, more = judged_by_readers()
    print(f"{asked} readings of man pages by mandoc and man")
    wrong += others + more
    if ran == 0:
        wrong.append("no command of a man page was run")
    print("\n".join(wrong + [f"{len(wrong)} complaints"]))
    return 1 if wrong else 0


if __name__ == "__main__":
    sys.exit(main())
