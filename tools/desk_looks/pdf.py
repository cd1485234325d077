"""The texts of a PDF that Chromium printed, page by page: enough of the format for that, and no more."""

import re
import zlib


def objects(data):
    """Each object by its number: its text, and its stream where it has one."""
    found = {}
    for match in re.finditer(rb"(?s)\n(\d+) 0 obj\n(.*?)\nendobj", data):
        head, _, stream = match.group(2).partition(b"stream\n")
        stream = stream.rsplit(b"\nendstream", 1)[0]
        found[int(match.group(1))] = head.decode("latin-1"), zlib.decompress(stream) if b"FlateDecode" in head and stream else stream
    return found


def letters(stream):
    """Which letter each code of a font is."""
    found = {}
    text = stream.decode("latin-1")
    for block in re.findall(r"(?s)beginbfchar(.*?)endbfchar", text):
        found |= {int(code, 16): chr(int(letter[:4], 16)) for code, letter in re.findall(r"<(\w+)> <(\w+)>", block)}
    for block in re.findall(r"(?s)beginbfrange(.*?)endbfrange", text):
        for first, last, letter in re.findall(r"<(\w+)> <(\w+)> <(\w+)>", block):
            found |= {code: chr(int(letter, 16) + code - int(first, 16)) for code in range(int(first, 16), int(last, 16) + 1)}
    return found


def fonts_of(head, all_objects):
    """The fonts of a page, by the names that its content has for them."""
    found = {}
    for name, number in re.findall(r"/(F\d+) (\d+) 0 R", head):
        to_unicode = re.search(r"/ToUnicode (\d+) 0 R", all_objects[int(number)][0])
        found[name] = letters(all_objects[int(to_unicode.group(1))][1]) if to_unicode else {}
    return found


def text_of(content, fonts):
    """What is drawn, letter by letter, in the order of drawing."""
    out, font = [], {}
    for name, codes in re.findall(r"/(F\d+) [\d.]+ Tf|<([0-9A-Fa-f]+)>", content.decode("latin-1")):
        if name:
            font = fonts.get(name, {})
        else:
            out += [font.get(int(codes[at:at + 4], 16), "?") for at in range(0, len(codes), 4)]
    return "".join(out)


def pages(data):
    """The text of each page."""
    all_objects = objects(data)
    found = []
    for _, (head, _) in sorted(all_objects.items()):
        if re.search(r"/Type /Page\b(?!s)", head):
            content = all_objects[int(re.search(r"/Contents (\d+) 0 R", head).group(1))][1]
            found.append(text_of(content, fonts_of(head, all_objects)))
    return found
