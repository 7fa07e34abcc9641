"""Makes a program's man page from what the program prints for `--help`."""

from __future__ import annotations

import re
import textwrap
import time

USAGE = re.compile(r"(?:usage:| {6}) (.*)", re.IGNORECASE)
TITLE = re.compile(r"(\w[\w ]*):")
ROW = re.compile(r" +(\S.*?) {2,}(\S.*)")
STATUSES = "Statuses"


def escaped(line: str) -> str:
    """A line that roff shows as it stands."""
    for letter, name in [("\\", "\\e"), ("-", "\\-"), ("^", "\\(ha"), ("~", "\\(ti"), ("`", "\\(ga"), ("'", "\\(aq")]:
        line = line.replace(letter, name)
    return "\\&" + line if line.startswith(".") else line


def roff(text: str) -> list[str]:
    """A text in lines that roff fills."""
    return [escaped(line) for line in textwrap.wrap(text, 66, break_long_words=False, break_on_hyphens=False)]


def blocks_of(text: str) -> list[list[str]]:
    """The blocks of lines between empty lines."""
    return [block.split("\n") for block in re.split(r"\n\s*\n", text.strip("\n")) if block.strip()]


def is_usage(block: list[str]) -> bool:
    """Whether a block says how the program is called."""
    return block[0].lower().startswith("usage:")


def usages(text: str) -> list[str]:
    """The ways to call the program, as its whole help lists them."""
    return [found[1].strip() for block in blocks_of(text) if is_usage(block) for found in map(USAGE.match, block) if found]


def commands(text: str) -> list[str]:
    """The commands that the whole help lists."""
    words = [usage.split()[1:2] for usage in usages(text)]
    return list(dict.fromkeys(word for (word,) in filter(None, words) if word[0].isalpha()))


def title_of(block: list[str]) -> str | None:
    """The title of a table; None for any other block."""
    found = TITLE.fullmatch(block[0].strip())
    return found[1] if found and len(block) > 1 else None


def rows_of(block: list[str]) -> list[list[str]]:
    """The rows of a table: what stands on the left, and what is said of it, if anything."""
    rows: list[list[str]] = []
    for line in block[1:]:
        row = ROW.fullmatch(line)
        if row:
            rows.append([row[1], row[2]])
        elif rows and len(line) - len(line.lstrip()) > 6 and not line.lstrip().startswith("-"):
            rows[-1][1] += " " + line.strip()
        else:
            rows.append([line.strip(), ""])
    return rows


def table(block: list[str]) -> list[str]:
    """A table as a list of terms."""
    return [line for term, said in rows_of(block) for line in (".TP", f"\\fB{escaped(term)}\\fR", *roff(said))]


def paragraphs(blocks: list[list[str]]) -> list[str]:
    """Blocks as paragraphs, and tables under their titles."""
    lines: list[str] = []
    for block in blocks:
        text = block[:1] if title_of(block) else block
        lines += [".PP", *roff(" ".join(map(str.strip, text))), *(table(block) if title_of(block) else [])]
    return lines[1:]


def page(name: str, version: str, seconds: int, whole: str, helps: dict[str, str], see: str) -> str:
    """The page: of the whole help, and of the help of each command; `see` says where more can be read."""
    blocks = [block for block in blocks_of(whole) if not is_usage(block)]
    statuses = next((block for block in blocks if title_of(block) == STATUSES), [])
    first = " ".join(map(str.strip, blocks[0])) if blocks else name
    brief = re.sub(rf"\A{re.escape(name)} ", "", first, flags=re.IGNORECASE).rstrip(".")
    date = time.strftime("%Y-%m-%d", time.gmtime(seconds))
    lines = [f'.TH {name.upper()} 1 "{date}" "{name} {version}" "User Commands"', ".SH NAME", *roff(f"{name} - {brief}")]
    lines += [".SH SYNOPSIS", *paragraphs([[usage] for usage in usages(whole)]), ".SH DESCRIPTION"]
    lines += [*paragraphs([block for block in blocks if block != statuses]), ".SH COMMANDS"]
    for command, text in helps.items():
        said = [block for block in blocks_of(text) if block != statuses and not is_usage(block)]
        lines += [f".SS {name} {command}", *paragraphs(said)]
    if statuses:
        lines += [".SH EXIT STATUS", *table(statuses)]
    return "\n".join([*lines, ".SH SEE ALSO", *roff(see)]) + "\n"
