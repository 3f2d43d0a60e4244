"""What the scripts share that hold the documents to the tree: their blocks, sentences and tables, and the names of the tree."""
import functools
import pathlib
import re
import subprocess

TOP = pathlib.Path(__file__).resolve().parent.parent
BESIDE = [TOP / "packaging/README.md", TOP / "bench/README.md", TOP / "bench/alike.md", TOP / "bench/wrong_bodies/README.md", TOP / "crates/mica/SPEED.md", TOP / "crates/mica/FORMATS.md", TOP / "crates/saved_items/FORMAT.md", TOP / "CHANGES.md", TOP / "SECURITY.md"]
PAGES = [TOP / "README.md", *sorted((TOP / "docs").glob("*.md")), *BESIDE]
OF_CRATES = sorted((TOP / "crates").glob("*/README.md"))


def blocks(page):
    """The blocks of a page that stand four spaces in: the number of the first line of each, and its lines."""
    found, lines = [], page.read_text().splitlines()
    for number, line in enumerate(lines, 1):
        if line.startswith("    ") and (not found or found[-1][0] + len(found[-1][1]) < number):
            found.append((number, []))
        goes_on = line.startswith("    ") or not line and number < len(lines) and lines[number].startswith("    ")
        if goes_on and found and found[-1][0] + len(found[-1][1]) == number:
            found[-1][1].append(line[4:])
    return found


def paragraphs(page):
    """The paragraphs, heads, points of lists and cells of tables of a page, each with its line."""
    found, is_open = [], False
    for number, line in enumerate(page.read_text().splitlines(), 1):
        if line.startswith("|"):
            found += [(number, cell.strip()) for cell in line.strip("|").split("|")]
        elif is_open and line.strip() and not re.match(r"    |#|\s*([-*]|\d+\.) ", line):
            found[-1] = (found[-1][0], f"{found[-1][1]} {line.strip()}")
            continue
        elif line.strip() and not line.startswith("    "):
            found.append((number, line.strip("# ")))
        is_open = bool(line.strip()) and not re.match(r"    |#|\|", line)
    return found


def sentences(page):
    """The sentences of a page, each with the line where its paragraph begins. What stands in backquotes is one word; a colon or a semicolon ends a sentence."""
    for number, text in paragraphs(page):
        text = re.sub(r"`[^`]*`", "CODE", text).replace("**", "")
        for sentence in re.split(r'(?<=[.:;?!])\s+(?=[A-Z"*(\d])|(?<=\.\))\s+', text):
            yield number, sentence


def rows(page):
    """The rows of the tables of a page: the line of each, and its cells."""
    for number, line in enumerate(page.read_text().splitlines(), 1):
        if line.startswith("|") and not line.startswith("|--"):
            yield number, [cell.strip() for cell in line.strip("|").split("|")]


@functools.lru_cache(None)
def files():
    """The files of the tree, from its top."""
    listed = subprocess.check_output(["git", "ls-files", "--cached", "--others", "--exclude-standard"], cwd=TOP, text=True)
    return [pathlib.Path(line) for line in listed.splitlines() if (TOP / line).exists()]


@functools.lru_cache(None)
def names():
    """Each file by all ends of its path, and each word of the crates' code and definitions."""
    found = set()
    for file in files():
        for path in (file, file.with_suffix("")):
            found.update("/".join(path.parts[at:]) for at in range(len(path.parts)))
        found.update(file.parts)
        if file.suffix in (".rt", ".antt"):
            found.update(re.findall(r"\w+", (TOP / file).read_text()))
    return found
