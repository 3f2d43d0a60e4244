"""Names of crates in comments, documents and scripts."""
import re
from pathlib import Path

from files import file_of_edit, moved_edit, new_file, with_words
from rust import RustFile, rewrite_ghost
from table import HERE, loud

DOCUMENTS = ["README.md", "docs/*.md"]


def in_comments(tree, text, path, source):
    """Crates that were renamed whole, between backticks in comments; crates that were parted are told."""
    mark = {".rt": "//", ".antt": "--"}.get(path.suffix)
    if not mark or not source[0]:
        return text
    name = "/".join(map(str, source))
    text = with_phrases(f"crates/{name}", text)
    return re.sub(rf"{mark}[^\n]*", lambda line: in_prose(tree, line[0], name, True), text)


def in_prose(tree, text, where, ticked):
    """A text that names crates. Of a crate that was parted a name with its module is replaced; else it is told."""
    table = tree.table
    for old, new in [*table.whole.items(), *alone(tree)]:
        if ticked:
            text = re.sub(rf"`{old}(?=[`:/])", f"`{new}", text)
        else:
            text = re.sub(rf"(?<![\w-]){old}(?![\w-])", new, text)
    for old in tree.symbols:
        text = re.sub(rf"(?<![\w-]){old}/((?:src|specs|proofs)/[\w/.]*)", lambda f: new_path_in_prose(tree, old, f), text)
        text = re.sub(rf"(?<![\w-]){old}/([A-Z]\w*)", lambda f: new_spec_in_prose(tree, old, f), text)
        text = re.sub(rf"(?<![\w-]){old}::(\w+)", lambda f: new_symbol_in_prose(tree, old, f), text)
        text = re.sub(rf"(?<![\w-]){old}(/|` \| `)(\w+)", lambda f: new_edit_in_prose(tree, old, f), text)
        if not ticked:
            text = re.sub(rf"`{old}`", lambda f: by_company(tree, old, f), text)
        left = rf"`{old}`" if ticked else rf"(?<![\w-]){old}(?![\w-])"
        if old not in table.facades or not ticked:
            for found in re.finditer(left, text):
                number = text.count("\n", 0, found.start()) + 1
                loud(f"{where}{'' if ticked else f':{number}'}: names {old}, which was parted")
    return text


def by_company(tree, old, found):
    """The crate of what is named behind a parted crate, or else before it, in the same cell or sentence: where it is one."""
    text = found.string
    behind = re.split(r"\||;|\. |\n|" + "|".join(f"`{name}`" for name in tree.names), text[found.end():], maxsplit=1)[0]
    before = re.split(r"\||;|\. |\n", text[:found.start()])[-1]
    for part in (behind, before):
        homes = {home_of(tree, old, word) for word in re.findall(r"`([^`]+)`", part)} - {None}
        if homes:
            return f"`{homes.pop()}`" if len(homes) == 1 else found[0]
    return found[0]


def home_of(tree, old, word):
    """The new crate of a file, a module or a symbol of an old crate."""
    parts = tree.table.parts[old]
    path = re.fullmatch(r"(?:src/)?(\w+)\.rt", word)
    if path:
        return parts["src"].get(path[1])
    word = re.sub(r"^(?:specs|proofs)/", "", word)
    if word in parts["specs"] or word in parts["proofs"]:
        return parts["specs"].get(word) or parts["proofs"].get(word)
    modules, _ = tree.symbols[old].get(word.split("::")[0], ((), None))
    return parts["src"].get(modules[0]) if modules else None


def new_edit_in_prose(tree, old, found):
    """A name of a crate and of a wrong body of it."""
    for file in [*(tree.crates / old).glob(f"*/{found[2]}.edit"), *(tree.top / "bench").rglob(f"{old}/{found[2]}.edit")]:
        to = new_file(tree, old, file_of_edit(file.read_text()))
        if to:
            return f"{to[0]}{found[1]}{found[2]}"
    return found[0]


def alone(tree):
    """Crates that go to one other crate as a whole, though with others."""
    for old in tree.symbols:
        homes = {home for kind in tree.table.parts[old].values() for home in kind.values()}
        if len(homes) == 1 and old not in tree.table.facades:
            yield old, homes.pop()


def new_spec_in_prose(tree, old, found):
    home = tree.table.parts[old]["specs"].get(found[1]) or tree.table.parts[old]["proofs"].get(found[1])
    return f"{home}/{found[1]}" if home else found[0]


def new_path_in_prose(tree, old, found):
    path = Path(found[1])
    to = new_file(tree, old, path) if path.suffix else None
    if to is None and len(path.parts) > 1:
        kind, module = path.parts[0], path.parts[1]
        to = (tree.place(old, kind, module)[0], path) if module in tree.table.parts[old][kind] else None
    return f"{to[0]}/{to[1]}" if to else found[0]


def new_symbol_in_prose(tree, old, found):
    modules, name = tree.symbols[old].get(found[1], (None, None))
    if modules and modules[0] not in tree.names:
        return f"{tree.place(old, 'src', modules[0])[0]}::{found[1]}"
    return found[0]


def in_script(tree, text, path, deps):
    """Rust that stands in a script, and lists of crates."""
    rust = RustFile(tree, "", "", path.stem, str(path))
    uses = "|".join(tree.names)
    text = re.sub(rf"^[ \t]*use (?:{uses})::[^;]*;\n", lambda f: rust.rewrite_uses(f[0]), text, flags=re.M)
    text = rewrite_ghost(tree, text, str(path))
    named = set(re.findall(r"^use ([a-z_0-9]+)::", text, re.M)) & set(deps)

    def new_list(found):
        words = found[0].split(" ")
        if not any(word in tree.symbols or word in tree.table.whole for word in words):
            return found[0]
        whole = [tree.table.whole.get(word, word) for word in words]
        wanted = named or {dep for word in whole if word not in tree.symbols for dep in deps.get(word, ())}
        out = []
        for word in whole:
            homes = dict.fromkeys(h for kind in tree.table.parts.get(word, {}).values() for h in kind.values())
            out += [h for h in homes if h in wanted] or list(homes)[:1] if word in tree.symbols else [word]
        return " ".join(dict.fromkeys(out))
    names = "|".join(sorted(tree.names, key=len, reverse=True))
    return re.sub(rf"(?<![\w./-])(?:{names})(?: (?:{names})(?![\w/:.-]))+", new_list, text)


def outside_crates(tree, deps):
    """Documents, and what bench has: (path, its new text)."""
    out = {}
    for pattern in DOCUMENTS:
        for file in sorted(tree.top.glob(pattern)):
            text, name = file.read_text(), str(file.relative_to(tree.top))
            marked, rows = with_rows(name, text)
            new = replace_texts(tree, in_prose(tree, marked, name, False))
            new = re.sub(r"\0(\d+)\0\n", lambda f: rows[int(f[1])], new)
            if new != text:
                out[file] = new
    for file in sorted((tree.top / "bench").rglob("*")):
        path = file.relative_to(tree.top)
        if not file.is_file() or "target" in path.parts or path.parts[1] == "moving" or path.suffix == ".edit":
            continue
        try:
            text = file.read_text()
        except UnicodeDecodeError:
            continue
        text, before = in_script(tree, text, path, deps), text
        new = replace_texts(tree, in_prose(tree, text, str(path), False))
        if new != before:
            out[file] = new
    return out


def sections(mark):
    """rows.txt: a section begins with its mark, a file and what its row begins with, or a phrase; then comes what stands there instead."""
    for section in re.split(r"^(?=[=~] )", (HERE / "rows.txt").read_text(), flags=re.M)[1:]:
        head, _, new = section.partition("\n")
        name, _, old = head[2:].partition(": ")
        if section[0] == mark:
            yield name, old, new


def with_rows(name, text):
    """A document whose rows of parted crates are marked, and what rows.txt has in their place."""
    rows = []
    for document, begin, new in sections("="):
        if document == name:
            text, times = re.subn(rf"^{re.escape(begin)}[^\n]*\n", f"\0{len(rows)}\0\n", text, count=1, flags=re.M)
            if not times:
                loud(f"{name}: no row begins with {begin}")
            rows.append(new)
    return with_phrases(name, text), rows


def with_phrases(name, text):
    for document, old, new in sections("~"):
        if document == name and old not in text:
            loud(f"{name}: it does not say: {old}")
        elif document == name:
            text = text.replace(old, new.removesuffix("\n"))
    return text


def replace_texts(tree, text):
    for a, b in tree.table.texts:
        text = text.replace(a, b)
    for places, a, b in tree.table.words:
        if "docs" in places:
            text = re.sub(rf"(?<!\w){re.escape(a)}(?!\w)", b, text)
    return text


def move_wrong_bodies(tree):
    """Edits that lie in folders of bench with a crate's name go where the files that they change go."""
    moved = {}
    for file in sorted((tree.top / "bench").rglob("*.edit")):
        old, folder = file.parent.name, file.parent.parent
        if old not in tree.names:
            loud(f"{file.relative_to(tree.top)}: there is no crate {old}")
            continue
        path = Path("wrong-bodies", file.name)
        home, _, text = moved_edit(tree, old, file, path)
        moved[file] = (folder / home / file.name, with_words(tree, text, path, (old, path)))
    for file in moved:
        file.unlink()
        if not any(file.parent.iterdir()):
            file.parent.rmdir()
    for file, (to, text) in moved.items():
        if to.exists():
            loud(f"{file.relative_to(tree.top)}: there is one of this name in {to.parent.name} already")
            to = to.with_stem(f"{to.stem}_of_{file.parent.name}")
        write(to, text)


def write(path, text):
    path.parent.mkdir(parents=True, exist_ok=True)
    if isinstance(text, bytes):
        path.write_bytes(text)
    else:
        path.write_text(text)
