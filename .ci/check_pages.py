#!/usr/bin/env python3
"""Checks the pages: README.md, CHANGELOG.md, docs/*.md, and the README of each crate and language that has one.

usage: .ci/check_pages.py

It builds nothing. Of each page: links lead somewhere; files and names that it mentions are there; what it says stands in
a file is defined there (`name` in FILE, clause `label` of `call` in FILE); each block of code is in a crate, and each script
with its output a worked case; its first lines say for whom it is; sentences and lines are short, and no retired word
is used. The last line is 'N passed, M failed'.
"""
import glob
import os
import re
import sys

TOP = os.path.join(os.path.dirname(os.path.abspath(__file__)), "..")
CASES = "crates/worked_cases/data/CASES.md"
MOST_WORDS, MOST_CHARACTERS = 35, 400
# Words that say nothing to a reader who doesn't know the code, and what a page says in their place.
RETIRED = {
    r"tell|tells|told|telling|retold": "report, print, state",
    r"anew": "again",
    r"by hand": "by your program",
    r"went well|goes well|go well": "succeeded",
    r"(goes|go|went) along": "is renamed with it",
    r"want of memory": "an allocation failed",
    r"feeds and misses": "adds events, and counts those that it refused",
    r"which of both": "the noun",
    r"so is it|so is which": "a whole sentence",
}
FILE = r"(?:\.?[A-Za-z_0-9]+/)+[A-Za-z_0-9.*-]+|[a-z]+\.(?:rt|antt)\b"


def read(path):
    with open(path, encoding="utf-8", errors="replace") as file:
        return file.read()


def squeezed(text):
    return " ".join(text.split())


def files():
    """Returns the paths of all files of the tree, but for what is built."""
    found = []
    for folder, folders, names in os.walk("."):
        folders[:] = [it for it in folders if it not in ("out", ".git", "target", "__pycache__")]
        found += [os.path.relpath(os.path.join(folder, name), ".") for name in names]
    return found


class Tree:
    """What is in the repository beside the pages."""

    def __init__(self, pages):
        self.files = files()
        others = [it for it in self.files if it not in pages]
        self.words = set()
        for path in others:
            self.words.update(re.findall(r"\w+", read(path)))
            self.words.update(re.findall(r"\w+", path))
        self.code = squeezed(" ".join(read(it) for it in sorted(others) if it.endswith((".rt", ".antt"))))
        self.cases = read(CASES)
        self.named_cases = set(re.findall(r"^## (\w+)", self.cases + read(CASES.replace("CASES", "STORIES")), re.M))
        specs = " ".join(read(it) for it in others if "/specs/" in it and it.endswith(".antt"))
        sources = " ".join(read(it) for it in others if it.endswith(".rt"))
        defined = set(re.findall(r"^ *(?:abbrev|unfoldable|record)?(?: pub)? *(?:record )?pub ([A-Za-z_0-9-]+)", specs, re.M))
        items = set(re.findall(r"\b(?:fn|struct|enum|trait|type|mod|const) ([A-Za-z_0-9]+)", sources))
        self.definitions_alone = defined - items
        # How many names of clauses, definitions and cases were looked up.
        self.looked_up = 0

    def anchors(self, path):
        return {anchor(it) for it in re.findall(r"^#+ (.*)", without_blocks(read(path)), re.M)}


def anchor(heading):
    return re.sub(r" ", "-", re.sub(r"[^A-Za-z0-9 _-]", "", heading)).lower()


def without_blocks(text):
    return re.sub(r"^```.*?^```$", "", text, flags=re.M | re.S)


def blocks(text):
    """Yields the language and the text of each block."""
    for found in re.finditer(r"^```(\w*)\n(.*?)^```$", text, re.M | re.S):
        yield found[1], found[2], found.end()


def links(page, text, tree):
    for link in set(re.findall(r"\]\(([^)\s]+)\)", without_blocks(text))):
        if re.match(r"https?:", link):
            continue
        file, _, heading = link.partition("#")
        target = os.path.normpath(os.path.join(os.path.dirname(page), file)) if file else page
        if not os.path.exists(target):
            yield f"no file: {link}"
        elif heading and heading not in tree.anchors(target):
            yield f"no heading: {link}"


def names(page, text, tree):
    if page == "CHANGELOG.md":
        return  # it names what was
    known = set(os.listdir("crates"))
    for path in set(re.findall(r"(?<![\w/.])(?:crates|docs|scripts|\.ci|c|python|rust)/[A-Za-z0-9_.*/-]*[A-Za-z0-9_*]", text)):
        if "/out" not in path and not glob.glob(path) and not glob.glob("crates/" + path):
            yield f"no file: {path}"
    for name in set(re.findall(r"\b[A-Za-z_]+\.(?:rt|antt|edit)\b", text)):
        if not any(it.endswith("/" + name) for it in tree.files):
            yield f"no file: {name}"
    for name in set(re.findall(r"`([a-z0-9]+(?:_[a-z0-9]+)+)`", text)) | {
        word for name in re.findall(r"`([A-Za-z_0-9]+(?:::[a-z_0-9]+)+)`", text) for word in name.split("::")
    }:
        if name not in tree.words and name not in known:
            yield f"no name: {name}"


def defines(source, name):
    name = name.rpartition("::")[2]
    pattern = rf"\b(pub|fn|struct|enum|trait|type|record|abbrev|ghost|const|mod)( [a-z0-9]+)* {re.escape(name)}(?![\w-])"
    return any(re.search(pattern, line) for line in source.split("\n") if not re.match(r" *(pub |ghost )*use ", line))


def has_clause(source, call, label):
    for found in re.finditer(rf"\bfn {re.escape(call)}\b", source):
        head = re.split(r"\n *\{\n|;\n|\{\}\n", source[found.start() :], maxsplit=1)[0]
        if re.search(rf"\b(ensures|requires) {label}\b", head):
            return True
    return False


def pointers(page, text, tree):
    """What stands in a file, is defined there."""
    name = r"`[A-Za-z_0-9:-]+`"
    some = rf"({name}(?:(?:, | and ){name})*)"
    for line in without_blocks(text).split("\n"):
        for labels, call, file in re.findall(rf"[Cc]lauses? {some} of `(\w+)` in (crates/\S+\.rt)", line):
            for label in re.findall(r"\w+", labels):
                tree.looked_up += 1
                if not os.path.isfile(file) or not has_clause(read(file), call, label):
                    yield f"{file}: {call} has no clause {label}"
        for told, file in re.findall(rf"{some} (?:in |\()(crates/[A-Za-z_0-9/]+(?:\.rt|\.antt)?)", re.sub(r"[Cc]lauses? .*? of (?=`)", "", line)):
            found = [file] if os.path.isfile(file) else [it for it in tree.files if it.startswith(file + "/") and it.endswith((".rt", ".antt"))]
            for it in re.findall(r"`([^`]+)`", told):
                tree.looked_up += 1
                if not any(defines(read(path), it) for path in found):
                    yield f"{file} lacks {it}"
        for told in re.findall(r"\bCases?: ([^.]*)", line):
            for case in re.findall(r"`(\w+)`", told):
                if case not in tree.named_cases:
                    yield f"no case {case}"


def examples(page, text, tree):
    found = list(blocks(text))
    for at, (language, block, _) in enumerate(found):
        # What the README of a crate of Rust shows is in no crate here.
        if language in ("rust", "antt") and not page.startswith("rust/") and squeezed(block) not in tree.code:
            yield f"block {at + 1} stands in no crate"
        if language == "script":
            after, output = found[at + 1][:2] if at + 1 < len(found) else ("", "")
            if after != "output" or f"```\n{block}```\n\nprints\n\n```\n{output}```" not in tree.cases:
                yield f"block {at + 1} with the output below it is no case of {CASES}"
        if language == "output" and (at == 0 or found[at - 1][0] not in ("script", "sh")):
            yield f"block {at + 1} is the output of nothing"


def plain(text):
    """Returns a text in which code and links are words."""
    text = re.sub(r"``.*?``|`[^`]*`", "code", text)
    text = re.sub(r"\]\([^)]*\)", "", text.replace("[", ""))
    return re.sub(r"\*\*?|\|", lambda found: " " if found[0] == "|" else "", text)


def sentences(text):
    """Yields the sentences of a page: items of lists and cells of tables stand alone."""
    for paragraph in re.split(r"\n\s*\n|\n(?=[ ]*(?:[-*]|\d+\.) )", without_blocks(text)):
        paragraph = re.sub(r"^ *(?:[-*]|\d+\.) ", "", paragraph)
        if paragraph.startswith("#"):
            continue
        parts = re.split(r"(?<!\\)\||\n", paragraph) if paragraph.startswith("|") else [paragraph.replace("\n", " ")]
        for part in parts:
            code = re.findall(r"`[^`]*`", part)
            masked = re.sub(r"`[^`]*`", "\0", part)
            for sentence in re.split(r"(?<=[.!?:])(?:\*\*)?\s+(?=[A-Z\0\[*(0-9])|(?<=\.\*\*)\s+", masked):
                yield re.sub("\0", lambda _: code.pop(0), sentence).strip()


def length(page, text, tree):
    for sentence in sentences(text):
        words = plain(sentence).split()
        if len(words) > MOST_WORDS:
            yield f"{len(words)} words: {sentence[:90]}"
    for number, line in enumerate(text.split("\n"), 1):
        if len(line) > MOST_CHARACTERS:
            yield f"line {number} has {len(line)} characters"


def wording(page, text, tree):
    bare = re.sub(r"\]\([^)]*\)", "]", re.sub(r"`[^`]*`", "", without_blocks(text)))
    for pattern, better in RETIRED.items():
        for found in re.findall(rf"[^.\n]*\b(?:{pattern})\b[^.\n]*", bare, re.I):
            words = re.findall(rf".{{0,40}}\b(?:{pattern})\b.{{0,20}}", bare, re.I)
            yield f"retired: {words[0]} ({better})"
            break
    for paragraph in re.split(r"\n(?=\*\*Where)", text):
        if not paragraph.startswith("**Where"):
            for sentence in sentences(paragraph):
                found = re.match(r"`([A-Za-z_0-9-]+)`", sentence)
                if found and found[1] in tree.definitions_alone:
                    yield f"a sentence begins with a definition: {sentence[:60]}"


def head(page, text, tree):
    first = " ".join(text.split("\n")[:4])
    if page != "README.md" and not ("This page is for" in first and "After it you" in first):
        yield "its first two lines don't say for whom it is, and what they will know after it"


def main():
    os.chdir(TOP)
    pages = ["README.md", "CHANGELOG.md", *sorted(glob.glob("docs/*.md"))]
    pages += sorted(glob.glob("crates/*/README.md") + glob.glob("python/README.md") + glob.glob("rust/*/README.md"))
    data = sorted(glob.glob("crates/*/data/*.md"))
    tree = Tree(pages)
    passed = failed = 0
    checks = [(page, check) for page in pages for check in (head, links, names, pointers, examples, length, wording)]
    for page, check in checks + [(page, links) for page in data]:
        wrong = sorted(set(check(page, read(page), tree)))
        passed, failed = passed + (not wrong), failed + bool(wrong)
        if wrong:
            print(f"FAILED: {page}: {check.__name__}", *wrong, sep="\n    ")
    # A page that is written otherwise isn't looked up by mistake.
    if tree.looked_up < 150:
        failed += 1
        print(f"FAILED: {tree.looked_up} names of clauses and definitions were looked up, fewer than 150")
    print(f"{passed} passed, {failed} failed")
    sys.exit(1 if failed else 0)


main()
