"""What a person reads, against what is there: tables against crates.txt and the sources, help texts, links, and each
command that a page shows, with its output. A command of a page stands in a block of this form:

    ```console
    $ ./vlm play <<END
    show
    END
    no resources
    ```
"""

import os
import re
import shlex
import tempfile
from pathlib import Path

from harness import Case, Ended, STORED, TOP, Test, chosen, difference, results_of, run, run_checked

DOCS = TOP / "docs"
README_LINES = 120
PAGES = [*(TOP / f"{name}.md" for name in ("README", "CONTRIBUTING", "CHANGELOG", "SECURITY")),
         *sorted(DOCS.glob("*.md")), *sorted((TOP / "examples").rglob("README.md"))]
MANUAL = TOP / "man" / "vlm.1"
# More conditions than this in one line outside docs/MACHINE.md are a list of a step's refusals.
MOST_CONDITIONS = 4


def text_of(name):
    return (TOP / name).read_text()


def short_readme(_program):
    """The README is read in two minutes."""
    lines = len(text_of("README.md").splitlines())
    if lines > README_LINES:
        yield f"README.md has {lines} lines, {README_LINES} at most"


def crate_table(_program):
    """docs/ARCHITECTURE.md lists each crate of crates.txt, in order."""
    wanted = re.findall(r"^(\w+)(?: staticlib)?:", text_of("crates.txt"), re.M)
    found = re.findall(r"^- `(vlm\w*)`: ", text_of("docs/ARCHITECTURE.md"), re.M)
    if len(wanted) < 20 or found != wanted:
        yield f"the crates are {found}"


def sources(pattern="src"):
    return [file for folder in (TOP / "crates").glob(f"*/{pattern}") for file in folder.rglob("*.rt")]


def laws(_program):
    """docs/LAWS.md names each law, and no other."""
    law = r"\bpub(?:\(crate\))? fn (law_\w+)"
    there = {name for file in sources() for name in re.findall(law, file.read_text())}
    named = set(re.findall(r"\blaw_\w+", text_of("docs/LAWS.md")))
    yield from (f"{name} is not in docs/LAWS.md" for name in sorted(there - named))
    yield from (f"docs/LAWS.md names {name}, which is not there" for name in sorted(named - there))


def source_of(crate, module):
    return TOP / "crates" / crate / "src" / f"{module}.rt"


def public_source(crate, path):
    """The file where a crate has the item of this path, or None if it is not public there."""
    *modules, item = path.split("::")
    library = source_of(crate, "lib")
    shown = library.read_text() if library.exists() else source_of(crate, "main").read_text()
    if modules:
        public = "pub mod" if library.exists() else "mod"
        return source_of(crate, "/".join(modules)) if f"{public} {modules[0]};\n" in shown else None
    return handed_on(crate, shown, item)


def handed_on(crate, shown, item, above=""):
    """The file from which a module's text hands an item on by `pub use`, or None if it does not."""
    for used, names in re.findall(r"^pub use ([\w:]+)::(\w+|\{[^}]*\});", shown, re.M):
        source, *inner = used.split("::")
        if item in re.findall(r"\w+", names):
            if (TOP / "crates" / source).is_dir():
                return public_source(source, "::".join((*inner, item)))
            module = above + used.replace("::", "/")
            file = source_of(crate, module)
            return handed_on(crate, file.read_text(), item, f"{module}/") or file
    return None


def missing_of(crate, path, members):
    """The members of a public item that are not there, or the item itself."""
    file, item = public_source(crate, path), path.rpartition("::")[2]
    text = file.read_text() if file else ""
    kind = re.search(rf"^pub (fn|struct|enum|trait|type) {item}\b", text, re.M)
    if not kind:
        return [item]
    sources = "\n".join(other.read_text() for other in file.parent.glob("*.rt"))
    own = rf"^( *)(?:pub (?:struct|enum|trait)|impl(?:<[^>\n]*>)?) {item}\b[^;{{]*(\{{.*?)^\1\}}"
    bodies = "\n".join(body for _, body in re.findall(own, sources, re.M | re.S))
    method = "fn" if kind[1] == "trait" else "pub fn"
    is_there = rf"^ +(?:{method} {{0}}\b|pub {{0}}:|(?:const )?(?=[A-Z]){{0}}(?:[(,]| =))"
    return [f"{item}::{name}" for name in members if not re.search(is_there.format(name), bodies, re.M)]


def public_names(_program):
    """Each name of tests/public_names.txt is public where that table says."""
    rows = [line.split() for line in text_of("tests/public_names.txt").splitlines()]
    rows = [row for row in rows if row and row[0] != "#"]
    if len(rows) < 60:
        yield f"tests/public_names.txt has {len(rows)} rows"
    for crate, path, *members in rows:
        yield from (f"{crate}: {name} is not public" for name in missing_of(crate, path, members))


def conditions():
    """The conditions by which a step is refused."""
    names = re.findall(r'Cond::\w+ => "([A-Z]+)"', text_of("crates/vlm_words/src/conditions.rt"))
    return set(names) - {"NORMAL", "SYNCH"}


def refusals(_program):
    """docs/MACHINE.md alone lists what a step is refused for."""
    named = conditions()
    if len(named) < 15:
        yield f"the sources name {len(named)} conditions"
    missing = named - set(re.findall(r"\b[A-Z]+\b", text_of("docs/MACHINE.md")))
    yield from (f"docs/MACHINE.md does not name {name}" for name in sorted(missing))
    for page in PAGES:
        if page.name == "MACHINE.md":
            continue
        for number, line in enumerate(page.read_text().splitlines(), 1):
            if len(named & set(re.findall(r"\b[A-Z]+\b", line))) > MOST_CONDITIONS:
                yield f"{page.name}:{number} lists refusals: link to docs/MACHINE.md"


def sizes(_program):
    """The sizes of records that a page names are those that tests hold."""
    held = set(re.findall(r"fn a_(lock|resource)_takes_at_most_(\d+)_bytes",
                          text_of("crates/vlm_core_tests/src/tests/records.rt")))
    if len(held) != 2:
        yield f"the tests hold {sorted(held)}"
    for page in PAGES:
        named = re.findall(r"record\s+of\s+a\s+(lock|resource)(?:\s+takes)?\s+at\s+most\s+(\d+)", page.read_text())
        for kind, size in named:
            if (kind, size) not in held:
                yield f"{page.name}: the record of a {kind} takes {size} bytes"


def help_texts():
    """The constants of help texts in the program's source, by name."""
    text = text_of("crates/vlm/src/arguments.rt")
    return {name: value.replace("\\\n", "") for name, value in
            re.findall(r'const (\w+): &str =\s*"((?:[^"\\]|\\.|\\\n)*)";', text)}


def forms():
    """The forms of a script's commands, as the help names them."""
    lines = help_texts()["PLAY_HELP"].splitlines()
    return [line.strip() for line in lines[1:lines.index(next(it for it in lines if it.startswith("The flags")))]]


def plain(text):
    """The text of a manual page without its marks."""
    text = re.sub(r"^\.(?:TP|PP|nf|fi|EX|EE|RS|RE|IP.*)\s*\n", "", text, flags=re.M)
    text = re.sub(r"\\f[BIRP]", "", re.sub(r"^\.[BI]R? ", "", text, flags=re.M))
    return text.replace("\\-", "-").replace("\\&", "")


def help_forms(_program):
    """The manual page has each command's form, and each option, as the help has."""
    manual = plain(MANUAL.read_text())
    if len(forms()) < 13:
        yield f"the help names {forms()}"
    options = re.findall(r'Arg::new\(alloc, "(\w+)"', text_of("crates/vlm/src/arguments.rt"))
    options = options or ["nodes", "name", "group"]
    for form in [*forms(), *(f"--{it}" for it in options)]:
        if form not in manual:
            yield f"man/vlm.1 has no {form}"


def flags(_program):
    """The manual page and docs/MACHINE.md name each flag of a request that the help names."""
    line = next(it for it in help_texts()["PLAY_HELP"].splitlines() if it.startswith("The flags are "))
    named = re.findall(r"[a-z]+", line.removeprefix("The flags are ").replace(" and ", " "))
    if len(named) < 9:
        yield f"the help names {named}"
    for flag in named:
        for name, word in (("man/vlm.1", flag), ("docs/MACHINE.md", flag.upper())):
            if not re.search(rf"\b{word}\b", text_of(name)):
                yield f"{name} has no {word}"


def headings(page, *sections):
    """The headings of the paragraphs in sections of a manual page, each with commas between its parts."""
    found = [page.partition(f".SH {it}\n")[2].partition("\n.SH ")[0].replace("\\\n", "") for it in sections]
    lines = re.findall(r"^\.TP\n(.*)", "\n".join(found), re.M)
    return {it.strip() for line in lines for it in re.sub(r"\\f[BIR]|^\.[BIR]{1,2} |[\"]", "", line).split(",")}


def protocol(_program):
    """man/vlm-protocol.7 has each line that the service reads, and each text of its own that it answers. Those that
    scripts have too are in man/vlm.1."""
    page, sources = text_of("man/vlm-protocol.7"), [it.read_text() for it in (TOP / "service").glob("*.c")]
    texts = {text for source in sources for text in re.findall(r'"([a-z ]+)(?:\\n)+"', source)}
    words = {word for source in sources for word in re.findall(r'is_word\(words\[0\], "(\w+)"\)', source)}
    readings = set(re.findall(r'\{"(\w+)", tell_', text_of("service/locks.c")))
    if len(texts) < 30 or len(words) < 7 or len(readings) < 7:
        yield f"the sources of the service have {sorted(texts)}, {sorted(words)} and {sorted(readings)}"
    shown = headings(page, "REFUSALS", "LAST LINES")
    quoted = set(re.findall(r'"([a-z ]+)"', page.replace("\n", " ")))
    of_scripts = headings(text_of("man/vlm.1"), "FAULTS") | {"no resources"}
    yield from (f"man/vlm-protocol.7 has no {it}" for it in sorted(texts - shown - quoted - of_scripts))
    yield from (f"the service has no text {it}" for it in sorted(shown - texts))
    for section, wanted in (("LINES", words | readings), ("SINGLE LOCKS", readings)):
        named = {it.split()[0] for it in headings(page, section)}
        yield from (f"{section} of man/vlm-protocol.7 has no line {it}" for it in sorted(wanted - named))


def calls(_program):
    """The manual page of the library has one line for each call of the headers."""
    page = text_of("man/vlm.3")
    for section, headers in (("CALLS", ("vlm.h",)), ("HUB", ("vlm_hub.h", "vlm_hub_wait.h")),
                             ("THREADS", ("vlm_threads.h",)), ("SERVICE", ("vlm_client.h",))):
        there = re.findall(r"^(?:uint32_t|size_t|void|const char \*) ?(vlm_\w+)\(",
                           "".join(text_of(f"include/{name}") for name in headers), re.M)
        named = re.findall(r"^(vlm_\w+)\t", page.partition(f".SH {section}\n")[2].partition(".SH ")[0], re.M)
        if len(there) < 13 or sorted(there) != sorted(named):
            yield f"{headers[0]} and man/vlm.3 differ in {sorted(set(there) ^ set(named)) or 'a call named twice'}"


def exported(headers):
    """The calls that headers declare."""
    text = re.sub(r"/\*.*?\*/", "", "".join(file.read_text() for file in headers), flags=re.S)
    return set(re.findall(r"\b(vlm_\w+)\(", text))


def symbols(_program):
    """packaging/libvlm.symbols has each call of the headers, which the shared library of a package shows."""
    there = exported((TOP / "include").glob("*.h"))
    named = set(re.findall(r"^ (vlm_\w+)@Base ", text_of("packaging/libvlm.symbols"), re.M))
    if len(named) < 100 or there != named:
        yield f"packaging/libvlm.symbols and the headers differ in {sorted(there ^ named)}"


# The types of handles. One that a call writes, after its own, is an answer; the bells are those of the handle.
HANDLES = ("vlm", "vlm_hub", "vlm_port", "vlm_threads", "vlm_client", "vlm_hub_service", "vlm_bell")


def places_of(arguments):
    """The place of each argument in the order of arguments: 0 for a handle, 1 for a process or node, 2 for what is
    asked, 3 for where the answer goes."""
    places = []
    for argument in arguments:
        kind, _, name = argument.rpartition(" ")
        if kind in HANDLES and name.count("*") == 1 and (kind == "vlm_bell" or not any(places)):
            places.append(0)
        elif argument in ("uint32_t pid", "uint32_t node"):
            places.append(1)
        elif kind == "size_t" and "*" not in name and places:
            places.append(places[-1])
        else:
            is_read = "*" not in name or "(" in argument or kind.startswith("const ") or kind == "vlm_threads_request"
            places.append(2 if is_read else 3)
    return places


def argument_order(_program):
    """Each call of the headers has the order of arguments that docs/LIBRARY.md names."""
    text = "".join(file.read_text() for file in (TOP / "include").glob("*.h"))
    found = re.findall(r"^(?:uint32_t|size_t|void) (vlm_\w+)\(([^;{]*)\);", text, re.M)
    if {name for name, _ in found} | {"vlm_condition_name"} != exported((TOP / "include").glob("*.h")):
        yield f"the calls are {[name for name, _ in found]}"
    for name, words in found:
        places = places_of(re.split(r",\s*(?![^()]*\))", " ".join(words.split())))
        if places != sorted(places):
            yield f"{name}({words}) has the places {places}"


# Where the packages for Rust and Python declare the calls of vlm.h, and a pattern of one there.
BINDINGS = (("bindings/rust/vlm-sys/src/lib.rs", r"\bpub fn (vlm_\w+)\("),
            ("bindings/rust/src/raw.rs", r"\b(vlm_\w+)\("),
            ("bindings/python/vlm/_library.py", r'^    "(vlm_\w+)": \['))
# Rust needs no vlm_version, since it links one library, and Python calls it once, when it loads the library.
UNBOUND = {"vlm_version"}


def bound_calls(_program):
    """The packages for Rust and Python have each call of vlm.h."""
    there = exported([TOP / "include" / "vlm.h"]) - UNBOUND
    if len(there) < 40:
        yield f"include/vlm.h has {sorted(there)}"
    for name, pattern in BINDINGS:
        yield from (f"{name} has no {it}" for it in sorted(there - set(re.findall(pattern, text_of(name), re.M))))


# Where the packages for Rust and Python have numbers of the headers: the file, the head of the place, and what comes
# before a name there. The numbers of condition values they compare with the library's names.
NUMBERS = (*(("bindings/python/vlm/values.py", f"class {name}", "VLM_")
             for name in ("Mode", "Queue", "AstKind", "Flags", "DequeueFlags")),
           ("bindings/python/vlm/hub.py", "class StepKind", "VLM_STEP_"),
           *(("bindings/rust/src/flags.rs", f"    {name} of", "VLM_") for name in ("EnqFlags", "DeqFlags")),
           *(("bindings/rust/src/names.rs", f"pub enum {name}", "VLM_") for name in ("Mode", "Queue")),
           ("bindings/rust/vlm-sys/src/lib.rs", "// The kinds of lines", "VLM_"))
# Names there that the header has otherwise, by the heads.
RENAMED = {head: {"CANCEL": "DEQ_CANCEL"} for head in ("class DequeueFlags", "    DeqFlags of")}


def numbers_of(file, head):
    """The numbers of a place by their names: those that are written there, or else 0, 1 and so on."""
    place = re.search(rf"^{re.escape(head)}\b.*\n((?:(?:[ #/].*|pub const .*)?\n)+)", text_of(file), re.M)[1]
    given = re.findall(r"^(?: +|pub const )(\w+)(?:: u32)? = (\d+);?$", place, re.M)
    names = re.findall(r"^    (\w+),$", place, re.M)
    return {name: int(number) for name, number in given} or {name.upper(): at for at, name in enumerate(names)}


def numbers(_program):
    """The packages for Rust and Python have the numbers of the headers' enumerations, and all of each."""
    text = re.sub(r"/\*.*?\*/", "", "".join(it.read_text() for it in (TOP / "include").glob("*.h")), flags=re.S)
    sets = [{name: int(number) for name, number in re.findall(r"(\w+) = (\d+)", it)}
            for it in re.findall(r"\benum \{(.*?)\}", text, re.S)]
    for file, head, before in NUMBERS:
        found = {before + RENAMED.get(head, {}).get(name, name): number
                 for name, number in numbers_of(file, head).items() if name != "NONE"}
        wanted = next((it for it in sets if found.keys() <= it.keys()), {})
        wanted = {name: number for name, number in wanted.items() if not name.startswith("VLM_NO_")}
        if not found or found != wanted:
            yield f"{file}: {head} has {found}, and the header {wanted}"


# Where the version stands beside the file VERSION, and a pattern of it there.
VERSIONS = (("CHANGELOG.md", r"^## ([\d.]+)"), ("README.md", r"version ([\d.]+);"),
            ("docs/BUILDING.md", r"`lib/libvlm\.so\.([\d.]+)`: the shared library, of version \1;"),
            ("bindings/rust/Cargo.toml", r'^version = "([^"]+)"'),
            ("bindings/rust/Cargo.toml", r'path = "vlm-sys", version = "([^"]+)"'),
            ("bindings/rust/vlm-sys/Cargo.toml", r'^version = "([^"]+)"'),
            ("bindings/python/pyproject.toml", r'^version = "([^"]+)"'),
            *((f"man/{page.name}", r'^\.TH \S+ \d "[^"]*" "vlm ([^"]+)"')
              for page in sorted((TOP / "man").iterdir())))
# Where its first two numbers stand, which libraries that fit each other have.
FITTING = (("bindings/python/vlm/_library.py", r'^FITS = "([^"]+)"'),
           ("tests/library.py", r'^SONAME = "libvlm\.so\.(.*)"'),
           ("docs/LIBRARY.md", r"find_package\(vlm ([\d.]+) REQUIRED\)"))


def version(_program):
    """The program, the packages, the changes and the manual pages have the version of the file VERSION, and the
    libraries its number."""
    wanted = text_of("VERSION").strip()
    fits = wanted.rpartition(".")[0]
    if help_texts()["VERSION"] != wanted:
        yield f"crates/vlm/src/arguments.rt has no version {wanted}"
    for rows, told in ((VERSIONS, wanted), (FITTING, fits)):
        for name, pattern in rows:
            found = re.search(pattern, text_of(name), re.M)
            if not found or found[1] != told:
                yield f"{name} has no version {told}"
    for page in PAGES:
        for other in set(re.findall(r"libvlm\.so\.(\d+\.\d+)", page.read_text())) - {fits}:
            yield f"{page.name} names libvlm.so.{other}"
    number = "0x" + "".join(f"{int(part):02x}" for part in wanted.split("."))
    for name in ("include/vlm.h", "crates/vlm_capi/src/arguments.rt", "bindings/rust/vlm-sys/src/lib.rs",
                 "bindings/python/vlm/_library.py"):
        found = re.search(r"VERSION[^\n]*?(0x[0-9a-f_]+)", text_of(name))
        if not found or found[1].replace("_", "") != number:
            yield f"{name} has no version {number}"


def kit(_program):
    """The README and docs/BUILDING.md name the kit that the file KIT names."""
    name = text_of("KIT").split()[0]
    for page in ("README.md", "docs/BUILDING.md"):
        if name not in text_of(page):
            yield f"{page} does not name {name}"
    for page in PAGES:
        for other in set(re.findall(r"rattle-kit-\w+", page.read_text())) - {name}:
            yield f"{page.name} names {other}"


def anchors(page):
    """The anchors of a page's headings, as they are made of them on the usual sites."""
    headings = re.findall(r"^#+ (.*)$", re.sub(r"^```.*?^```", "", page.read_text(), flags=re.M | re.S), re.M)
    return {re.sub(r"[^\w\- ]", "", re.sub(r"[`*]", "", it).lower()).replace(" ", "-") for it in headings}


def links(_program):
    """Each link leads to a file, and to a heading of it."""
    for page in PAGES:
        text = re.sub(r"^```.*?^```", "", page.read_text(), flags=re.M | re.S)
        for target in re.findall(r"\]\(([^)\s]+)\)", text):
            if re.match(r"https?:|mailto:", target):
                continue
            name, _, anchor = target.partition("#")
            file = (page.parent / name) if name else page
            if not file.exists():
                yield f"{page.name}: no {target}"
            elif anchor and file.suffix == ".md" and anchor not in anchors(file):
                yield f"{page.name}: no heading for {target}"


FILE = re.compile(r"`((?:\.ci|bench|bindings|crates|docs|examples|include|man|packaging|tests|tools|vms)/[\w./-]*)`")


def files(_program):
    """Each file and folder that a page names is there. What a run leaves is in a folder `out`."""
    for page in PAGES:
        for name in FILE.findall(page.read_text()):
            if not re.search(r"/out|/[A-Z]{4}", name) and not (TOP / name).exists():
                yield f"{page.name}: no {name}"


def functions(_program):
    """Each function, definition and metric whose name a page gives is there: names of four words and more, such as
    those of tests."""
    there = {name for file in sources() for name in re.findall(r"\bfn (\w+)", file.read_text())}
    for file in (TOP / "crates").glob("*/specs/*.antt"):
        there |= set(re.findall(r"^(?:abbrev|unfoldable) pub (\w+) :", file.read_text(), re.M))
    for file in (TOP / "include").glob("*.h"):
        there |= set(re.findall(r"^[\w *]*\b(vlm_\w+)\(", file.read_text(), re.M))
    there |= set(re.findall(r'{"(\w+)", "(?:gauge|counter)"', (TOP / "service" / "who.c").read_text()))
    for page in PAGES:
        for name in sorted(set(re.findall(r"`([a-z]+(?:_[a-z0-9]+){3,})`", page.read_text())) - there):
            yield f"{page.name}: no function {name}"


def proof_files(_program):
    """What is wrong with the list of docs/LAWS.md: it has each law with the files that its answer cites."""
    found = dict(re.findall(r"^- `(law_\w+)`: (.*)$", text_of("docs/LAWS.md"), re.M))
    for file in sorted((TOP / "crates").glob("*/proofs/**/law_*/Answers.antt")):
        crate, law = file.relative_to(TOP / "crates").parts[0], file.parent.name
        folder = "" if crate == "vlm_model" else f"{crate}/proofs/"
        cited = sorted(set(re.findall(rf"^use Rattle\.{crate}\.proofs\.(\w+)\.{{", file.read_text(), re.M)))
        wanted = ", ".join(f"`{folder}{it}`" for it in cited)
        yield from difference((law, found.pop(law, None)), (law, wanted))
    yield from (f"docs/LAWS.md: no law {law}" for law in found)


def checks():
    return (functions, proof_files, short_readme, crate_table, public_names, laws, refusals, sizes, help_forms, flags,
            protocol, calls, symbols, argument_order, bound_calls, numbers, version, kit, links, files)


def blocks():
    """Each console block of a page: where it is, and its lines."""
    for page in PAGES:
        for number, block in enumerate(re.findall(r"^```console\n(.*?)^```", page.read_text(), re.M | re.S), 1):
            yield f"{page.name}, console block {number}", block.splitlines()


def commands_of(lines):
    """The commands of a console block: the words, the script if there is one, and the output."""
    at = 0
    while at < len(lines):
        command = lines[at].removeprefix("$ ")
        at, script = at + 1, []
        if command.endswith("<<END"):
            end = lines.index("END", at)
            at, script = end + 1, lines[at:end]
        printed = []
        while at < len(lines) and not lines[at].startswith("$ "):
            printed.append(lines[at])
            at += 1
        words = shlex.split(command.removesuffix("<<END").partition("#")[0])
        yield words, "".join(line + "\n" for line in script), "".join(line + "\n" for line in printed)


def is_run(words):
    """Whether these words run a script."""
    return words[0] == "./vlm" and words[1:2] in (["play"], ["cluster"], ["watch"])


def shown_cases():
    """Each run of the program that a page shows."""
    for where, lines in blocks():
        for words, script, printed in commands_of(lines):
            if not is_run(words):
                continue
            if "<" in words:
                script, words = text_of(words[words.index("<") + 1]), words[:words.index("<")]
            # (of a run that ends with a fault the page shows its line, which goes to standard error)
            fault = re.search(r"^line \d+: .*\n\Z", printed, re.M)
            told = fault[0] if fault and "held" not in fault[0] else ""
            ended = Ended(1 if told else 0, printed.removesuffix(told).encode(), told.encode())
            yield Case(where, words[1:], script.encode(), ended)


def fenced(page, language):
    """The blocks of a page in a language, each with the text after it."""
    parts = re.split(rf"^```{language}\n(.*?)^```\n", page.read_text(), flags=re.M | re.S)
    return list(zip(parts[1::2], parts[2::2]))


def shown_programs(_program):
    """Each whole program in C that a page shows is a file of examples/c or vms/examples, and its output is the file
    beside it."""
    folders = (TOP / "examples" / "c", TOP / "vms" / "examples")
    sources = {file.read_text().strip(): file for folder in folders for file in folder.glob("*.c")}
    for page in PAGES:
        for block, after in fenced(page, "c"):
            if "int main" not in block:
                continue
            source = next((file for text, file in sources.items() if text.endswith(block.strip())), None)
            if not source:
                yield f"{page.name}: a program that is no example: {block[:60]!r}"
            elif not re.match(r"\s*It prints:\s*```text\n" + re.escape(source.with_suffix(".out").read_text()), after):
                yield f"{page.name}: the output of {source.name}"


def shown_calls(_program):
    """Each name of the library that a page has is in a header, or in the table of what changed."""
    there = set(re.findall(r"\bvlm_\w+", "".join(file.read_text() for file in (TOP / "include").glob("*.h*"))))
    there |= {path.name for path in (TOP / "crates").iterdir()}
    if len(there) < 150:
        yield f"the headers name {sorted(there)}"
    for page in PAGES:
        text = re.sub(r"^\| Old call .*?\n\n", "", page.read_text(), flags=re.M | re.S)
        yield from (f"{page.name}: no {it}" for it in sorted(set(re.findall(r"`(vlm_\w+)`", text)) - there))


def stripped(text):
    """The lines of a source without their margins, those of an example in a comment too."""
    return [re.sub(r"^//!\s*", "", line.strip()) for line in text.splitlines()]


def is_shown_of(lines, source):
    """Whether a source has these lines one after another. A contract is shown to its end."""
    for at in range(len(source) - len(lines) + 1):
        if source[at:at + len(lines)] == lines:
            is_clause = re.match(r"(ensures|requires)\b", lines[-1])
            return not is_clause or source[at + len(lines)].startswith("{")
    return False


def shown_code(_program):
    """Each paragraph of Rust and Rattle that a page shows is in a source, where tests or proofs try it."""
    files = [*sources(), *(TOP / "bindings" / "rust" / "src").rglob("*.rs")]
    texts = [stripped(file.read_text()) for file in files]
    for page in PAGES:
        for block, _ in fenced(page, "rust"):
            for paragraph in re.split(r"\n\s*\n", block.strip("\n")):
                lines = stripped(paragraph)
                if not any(is_shown_of(lines, text) for text in texts):
                    yield f"{page.name}: no source has {lines[0]!r} and what follows"


def shown_changes(_program):
    """What a page's change takes away is in the file that it names."""
    for page in PAGES:
        for block, _ in fenced(page, "diff"):
            name = ""
            for line in block.splitlines():
                if line.startswith("--- "):
                    name = line[4:]
                elif line.startswith("-") and line[1:].strip() not in text_of(name):
                    yield f"{page.name}: {name} has no {line[1:].strip()!r}"


def shown_tools(_program):
    """Each other command of a console block is one of ./vlm's tools, and prints what the page says."""
    for where, lines in blocks():
        for words, _, printed in commands_of(lines):
            if words == ["./vlm", "test", "--list"]:
                ended = run([TOP / "vlm", *words[1:]])
                yield from (f"{where}: {it}" for it in difference(ended.printed.decode(), printed))
            elif not is_run(words):
                yield f"{where}: nothing tests {words}"


# What a run of .ci/run prints that the tables of the gate are made of, and the rows that they get.
GATE_LOG = """rt: ok; handles allowed: Threads; every proof and must-fail edit was done in this run
gate: commit abc1234, a kit, 4 processors
rt ci: 600.5 seconds by the clock, 1200.25 and 59.75 of processor time
./vlm test: 60 seconds by the clock, 120 and 0 of processor time
checks of vlm_low: 60 proof, 0 tests, 120 edits, in seconds of processor time
checks of vlm_high: 30 proof, 90 tests, 0 edits, in seconds of processor time
12 passed, 0 failed
"""
GATE_ROWS = ("Of commit abc1234, a kit, 4 processors, in minutes. The second table has processor time.",
             "| `rt ci` | 10.0 | 21.0 |", "| `./vlm test` | 1.0 | 2.0 |", "| `.ci/run` | 11.0 | 23.0 |",
             "| `vlm_low` | 1.0 | 0.0 | 2.0 | 3.0 |", "| `all` | 1.5 | 1.5 | 2.0 | 5.0 |")


def gate_tables(_program):
    """`tools/times` makes the tables of the gate of what .ci/run prints, and refuses a run that kept proofs."""
    with tempfile.TemporaryDirectory() as folder:
        log, page = Path(folder) / "log", Path(folder) / "page.md"
        page.write_text(text_of("docs/TESTING.md"))
        log.write_text(GATE_LOG)
        run([str(TOP / "tools" / "times"), "table", str(log), str(page)])
        lines = page.read_text().splitlines()
        yield from (f"no row {row!r}" for row in GATE_ROWS if row not in lines)
        log.write_text(GATE_LOG.replace("every proof", "one proof"))
        if run([str(TOP / "tools" / "times"), "table", str(log), str(page)]).status != 2:
            yield "a run that kept proofs is taken"


def statement(check):
    return Test(check.__name__.replace("_", " "), check)


def once():
    shown = (shown_programs, shown_calls, shown_code, shown_changes, shown_tools)
    return [statement(check) for check in (*checks(), *shown)]


def tests():
    return [case.test() for case in shown_cases()]


def checked():
    """The results where nothing is proved: the shown runs are made on the checked build."""
    yield from results_of(chosen(once()), None, os.cpu_count())
    yield from run_checked(STORED, chosen(shown_cases()))
