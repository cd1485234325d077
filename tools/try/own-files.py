#!/usr/bin/env python3
"""A file of the database that is named for something else is refused, however it is spelled, and nothing is changed."""

import os
import shutil

from looks import EXAMPLES, FILES, REQUEST, copied, look, main, register, run, same

ENDINGS = ("", "-journal", "-wal", "-shm")
LOGINS = "login,employee\nJONES,JONES\n"


def held(folder):
    """All files of a folder, with their bytes, and where its links lead."""
    found = {}
    for path in sorted(folder.rglob("*")):
        name = str(path.relative_to(folder))
        found[name] = os.readlink(path) if path.is_symlink() else path.read_bytes() if path.is_file() else None
    return found


def refused(folder, title, subject, *words):
    before = held(folder)
    same(title, run(*words, lines=[REQUEST], folder=folder), (1, "", f"fault: {subject} SameFile\n"))
    look(f"{title}: nothing is changed", held(folder) == before, sorted(held(folder)))


def spellings(folder, name):
    """Other words for a file of this folder."""
    (folder / "sub").mkdir(exist_ok=True)
    if not (folder / "there").exists():
        (folder / "there").symlink_to(".")
    return name, f"./{name}", f"sub/../{name}", f"there/{name}", f".//{name}", str(folder / name)


def journals(folder):
    register(folder / "room.db", [REQUEST])
    for ending in ENDINGS:
        for path in spellings(folder, f"room.db{ending}"):
            refused(folder, f"run --journal {path}", "journal", "run", "--db", "room.db", "--journal", path)
            refused(folder, f"serve --journal {path}", "journal", "serve", "room.db", "--port", "1", "--count", "1", "--journal", path)
            refused(folder, f"migrate --journal {path}", "journal", "migrate", "room.db", "--journal", path)
            refused(folder, f"init --journal {path}", "journal", "init", *FILES, "--db", "room.db", "--journal", path)
            refused(folder, f"serve --logins {path}", "logins", "serve", "room.db", "--port", "1", "--count", "1", "--desk", "--logins", path)


def parts(folder):
    """A journal with its register: neither a part nor the next one may be a file of that, or of a copy of it."""
    register(folder / "room.db", [REQUEST], journal=folder / "journal")
    copied(folder / "room.db", folder / "copy.db")
    for ending in ENDINGS:
        for path in spellings(folder, f"room.db{ending}"):
            refused(folder, f"journal {path} --next", "journal", "journal", path, "--db", "room.db", "--next", "new")
            refused(folder, f"journal --next {path}", "journal", "journal", "journal", "--db", "room.db", "--next", path)
            refused(folder, f"verify {path}", "journal", "verify", "room.db", path, *FILES)
            refused(folder, f"verify --part {path}", "journal", "verify", "room.db", "journal", "--part", "other", "--part", path, *FILES)
            refused(folder, f"verify --part {path} --from", "journal", "verify", "room.db", "journal", "--part", path, "--from", "copy.db")
        path = f"copy.db{ending}"
        refused(folder, f"verify {path} --from", "journal", "verify", "room.db", path, "--from", "copy.db")
        refused(folder, f"verify --part {path} of the copy", "journal", "verify", "room.db", "journal", "--part", path, "--from", "copy.db")
    same("its own parts are none of these", run("verify", "room.db", "journal", "--from", "copy.db", folder=folder), (0, "verified 0 commands\n", ""))
    same("nor is a next part", run("journal", "journal", "--db", "room.db", "--next", "room.db-log", folder=folder), (0, "next part after 1\n", ""))


def links(folder):
    path = register(folder / "room.db", [REQUEST])
    (folder / "link.db").symlink_to("room.db")
    for ending in ENDINGS:
        refused(folder, f"by a link, room.db{ending}", "journal", "run", "--db", "link.db", "--journal", f"room.db{ending}")
    (folder / "link").symlink_to("room.db")
    refused(folder, "a link to the database", "journal", "run", "--db", "room.db", "--journal", "link")
    os.link(path, folder / "second")
    refused(folder, "a second name of the database", "journal", "run", "--db", "room.db", "--journal", "second")
    (folder / "second").unlink()
    if (folder / "room.db-wal").exists():
        os.link(folder / "room.db-wal", folder / "second")
        refused(folder, "a second name of the log", "journal", "run", "--db", "room.db", "--journal", "second")
        (folder / "second").unlink()


def files(folder):
    """The three files of `init` and of `verify`."""
    for ending in ENDINGS:
        for place, subject in enumerate(("sections", "points", "staff")):
            name = f"room.db{ending}"
            shutil.copy(FILES[place], folder / name)
            words = list(FILES)
            words[place] = name
            refused(folder, f"init, {subject} in {name}", subject, "init", *words, "--db", "room.db")
            refused(folder, f"init, {subject} in ./{name}", subject, "init", *[word if word != name else f"./{name}" for word in words], "--db", "room.db")
            (folder / name).unlink()
    register(folder / "room.db")
    refused(folder, "verify, its journal", "journal", "verify", "room.db", "room.db-wal", *FILES)


def made(folder):
    """A database that is to be made may be no file of the journal that is to be begun."""
    for ending in ENDINGS[1:]:
        refused(folder, f"init --db of the journal{ending}", "journal", "init", *FILES, "--db", f"journal{ending}", "--journal", "journal")


def others(folder):
    """A file of another database, or of a like name, is none of these."""
    register(folder / "other.db")
    for title, database, journal in (("a journal of a like name", "room.db", "room.db-log"), ("a journal beside another database", "more.db", "other.db-journal")):
        words = ["--db", database, "--journal", journal]
        same(f"{title}: init", run("init", *FILES, *words, folder=folder)[0], 0)
        same(f"{title}: run", run("run", *words, lines=[REQUEST], folder=folder)[0], 0)
    (folder / "logins.csv").write_text(LOGINS, encoding="ascii")
    look("the examples are there", (EXAMPLES / "sections.csv").exists())


if __name__ == "__main__":
    main(journals, parts, links, files, made, others)
