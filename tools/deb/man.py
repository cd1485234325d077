"""Man pages from the Markdown of docs/ and package/: headings, paragraphs, blocks of lines, lists, tables, code, bold, links."""

import re


def escaped(text):
    return text.replace("\\", "\\e").replace("-", "\\-")


def plain(text):
    """A line of text, with code and bold, and links as their words and their file in /usr/share/doc."""
    text = re.sub(r"\[((?:[^\]`]|`[^`]*`)*)\]\((?:([A-Z]+\.md)|#|\.\./)[^)]*\)", lambda m: m[1] + (f" ({m[2]})" if m[2] else ""), text)
    out = []
    for part in re.split(r"(`[^`]*`|\*\*.*?\*\*)", text, flags=re.S):
        if part.startswith("`"):
            out.append(f"\\fB{escaped(part[1:-1])}\\fR")
        elif part.startswith("**"):
            out.append(f"\\fB{plain(part[2:-2])}\\fR")
        else:
            out.append(escaped(part))
    return "".join(out)


def guarded(line):
    """A line of text is no request of roff."""
    return "\\&" + line if line[:1] in (".", "'") else line


def cells(row):
    return [cell.strip() for cell in row.strip().strip("|").split("|")]


def row_of(row):
    *first, last = cells(row)
    return f".TP\n{guarded(plain('  '.join(cell for cell in first if cell)))}\n{guarded(plain(last))}"


def item_of(item):
    return ".IP \\(bu 2\n" + "\n".join(guarded(line.strip()) for line in plain(item).splitlines())


def parts(text):
    """The paragraphs, tables, headings and blocks of lines of a document."""
    return [part for part in re.split(r"\n\s*\n", text.strip("\n")) if part.strip()]


def body(text):
    out = []
    for part in parts(text):
        lines = part.splitlines()
        if part.startswith("## "):
            out.append(f".SH {escaped(part[3:]).upper()}")
        elif part.startswith("    "):
            out.append("\n".join([".PP", ".nf", ".RS 4", *(guarded(escaped(line[4:])) for line in lines), ".RE", ".fi"]))
        elif part.startswith("|"):
            out += [row_of(row) for row in lines[2:]]
        elif part.startswith("- "):
            out += [item_of(item) for item in re.split(r"\n- ", part[2:])]
        else:
            out.append(".PP\n" + "\n".join(guarded(line) for line in plain(part).splitlines()))
    return re.sub(r"(?m)^(\.SH .*\n)\.PP\n", r"\1", "\n".join(out) + "\n").removeprefix(".PP\n")


def section(text, title):
    """What a document has below a heading."""
    return re.search(rf"^## {title}\n(.*?)(?=^## |\Z)", text, re.M | re.S).group(1)


def head(name, chapter, time, version, does):
    return f'.TH {name.upper()} {chapter} "{time:%Y-%m-%d}" "gridclear {version}"\n.SH NAME\n{escaped(name)} \\- {plain(does)}\n'


class Subcommands:
    """What docs/PROGRAM.md says of the subcommands."""

    def __init__(self, program):
        self.text = section(program, "Subcommands")
        self.files = section(program, "Files")
        self.rows = {}
        for line in self.text.splitlines():
            if line.startswith("| `"):
                usage, does = cells(line)
                self.rows.setdefault(usage.strip("`").split()[0], []).append((usage, does))
        offset = re.search(r"^- ((?:`\w+`(?:, | and )?)+) take `--offset", self.text, re.M).group(1)
        self.options = {name: set(re.findall(r"--[a-z][a-z-]*", " ".join(usage + does.split(";")[-1] for usage, does in rows)))
                        for name, rows in self.rows.items()}
        for name in re.findall(r"`(\w+)`", offset):
            self.options[name].add("--offset")

    def page(self, name, time, version):
        rows = self.rows[name]
        does = re.split(r"[,;]| and ", rows[0][1].split("](")[0].lstrip("["))[0]
        usage = ".br\n".join(f".B gridclear {escaped(usage.strip('`'))}\n" for usage, _ in rows)
        more = "\n\n".join(part for part in parts(self.text) if not part.startswith("|"))
        text = f"{head(f'gridclear-{name}', 1, time, version, does)}.SH SYNOPSIS\n{usage}.SH DESCRIPTION\n"
        text += "".join(row_of(f"| {usage} | {does} |") + "\n" for usage, does in rows)
        text += ".SH ALL SUBCOMMANDS\n" + body(more)
        if any("SECTIONS" in usage for usage, _ in rows):
            text += ".SH FILES\n" + body(self.files)
        return text + SEE


SEE = ".SH SEE ALSO\n.BR gridclear (1),\n.BR gridclear\\-setup (8),\n.I /usr/share/doc/gridclear\n"


def program_page(program, about, time, version):
    """gridclear(1): the whole of docs/PROGRAM.md."""
    text = program[program.index("\n## "):]
    return head("gridclear", 1, time, version, about) + ".SH SYNOPSIS\n.B gridclear\n.I SUBCOMMAND ...\n" + body(text) + SEE


def own_page(text, chapter, time, version):
    """A page that is written as one: its name, what it does, and its sections."""
    name, does, *rest = parts(text)
    return head(name.lstrip("# "), chapter, time, version, does) + body("\n\n".join(rest)) + SEE
