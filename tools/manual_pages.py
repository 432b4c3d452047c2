"""Makes a manual page for each call of the headers, from the comments there. Calls under one comment share a page."""

import re
from dataclasses import dataclass

# A comment that begins a line, and what follows it up to an empty line.
COMMENTED = re.compile(r"^/\* ((?:(?!\*/).)*)\*/\n((?:(?!/\*)[^\n]+\n)+)", re.M | re.S)
# A declaration.
DECLARED = re.compile(r"^((?:uint32_t|size_t|void|const char \*) ?(vlm_\w+)\([^;{]*\))", re.M)
STRUCT = re.compile(r"^typedef struct (vlm_\w+) \{.*?^\} \1;\n", re.M | re.S)
# A line that tells when a call has an answer, as `NORMAL: granted.`
ANSWER = re.compile(r"([A-Z]{3,}(?:, [A-Z]{3,})*): (.*)")


@dataclass
class Page:
    """The page of one comment: the header, the declarations by name, and the lines of the comment."""
    header: str
    declared: dict
    lines: list

    @property
    def names(self):
        return list(self.declared)


def without_stars(comment):
    """The lines of a comment, without the star before each."""
    return [re.sub(r"^ \* ?", "", line).rstrip() for line in comment.rstrip().split("\n")]


def pages_of(header, text):
    """The pages of a header, from its text."""
    for comment, below in COMMENTED.findall(text):
        declared = {name: " ".join(words.split()) for words, name in DECLARED.findall(below)}
        if declared:
            yield Page(header, declared, without_stars(comment))


def escaped(text):
    """Text as roff prints it unchanged."""
    text = text.replace("\\", "\\e").replace("-", "\\-")
    return re.sub(r"^([.'])", r"\\&\1", text, flags=re.M)


def code(lines):
    return [".PP", ".in +4n", ".EX", *map(escaped, lines), ".EE", ".in"]


def paragraph(lines):
    """A paragraph of a comment: code, items of a list, answers, or plain text."""
    if all(line.startswith("    ") for line in lines):
        return code(line[4:] for line in lines)
    made = [".PP"]
    for line in lines:
        answer = ANSWER.fullmatch(line)
        if answer:
            made += [".TP", f".B {answer[1]}", escaped(answer[2])]
        elif line.startswith("- "):
            made += [".IP \\(bu 2", escaped(line[2:])]
        else:
            made.append(escaped(line.strip()))
    return made


def paragraphs(lines):
    """The paragraphs of a comment: an empty line, or a change between text and code, ends one."""
    found, was_code = [[]], False
    for line in lines:
        is_code = line.startswith("    ")
        if not line or is_code != was_code and found[-1]:
            found.append([])
        if line:
            found[-1].append(line)
            was_code = is_code
    return [it for it in found if it]


def summary(lines):
    """The first sentence of a comment, as the line NAME of a page has it."""
    sentence = re.split(r"[.:;](?:\s|$)", " ".join(lines), maxsplit=1)[0]
    return sentence[0].lower() + sentence[1:]


def structs_of(page, structs):
    """The structs that the declarations of a page name."""
    words = set(re.findall(r"\bvlm_\w+", " ".join(page.declared.values())))
    return [text for name, text in structs.items() if name in words]


def printed(page, structs, version):
    """The page in the language of man."""
    made = [f'.TH {page.names[0]} 3 "" "vlm {version}" "Library Functions"', ".SH NAME",
            f"{', '.join(page.names)} \\- {escaped(summary(page.lines))}", ".SH SYNOPSIS", ".nf",
            f"\\fB#include <{page.header}>\\fR", "", *(f"\\fB{escaped(it)};\\fR" for it in page.declared.values()),
            ".fi", ".SH DESCRIPTION"]
    for lines in paragraphs(page.lines):
        made += paragraph(lines)
    shown = structs_of(page, structs)
    if shown:
        made += [".SH STRUCTS"] + [line for text in shown for line in code(text.rstrip().split("\n"))]
    return "\n".join([*made, ".SH SEE ALSO", ".BR vlm (3)", ""])


def write_manual_pages(folder, headers, version):
    """Writes the pages of these headers into a folder. The further names of a page lead to it."""
    texts = {header.name: header.read_text() for header in headers}
    structs = {it[1]: it[0] for text in texts.values() for it in STRUCT.finditer(text)}
    for header, text in texts.items():
        for page in pages_of(header, text):
            first, *others = page.names
            (folder / f"{first}.3").write_text(printed(page, structs, version))
            for name in others:
                (folder / f"{name}.3").write_text(f".so man3/{first}.3\n")
