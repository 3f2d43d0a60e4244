"""crates.txt anew."""
import re

from table import HERE, loud


def used_libraries(texts, libraries):
    used = set()
    for path, text in texts:
        code = re.sub(r"//[^\n]*", "", text) if path.suffix == ".rt" else re.sub(r"--[^\n]*", "", text)
        used |= {m for m in re.findall(r"Rattle\.([a-z_0-9]+)\.", code)}
        if path.suffix == ".rt":
            used |= set(re.findall(r"(?<![\w:.])([a-z_][a-z_0-9]*)::", code))
            used |= set(re.findall(r"\buse ([a-z_0-9]+);", code))
    return used & libraries


def local_names(tree, crate, texts):
    """Its modules that have the name of a library that it did not use before either."""
    modules = {path.stem for path, _ in texts if path.parts[0] == "src"}
    return {m for m in modules if m in tree.old_lines and m not in tree.old_lines.get(crate, ([], []))[1]}


def new_list(tree, new):
    """crates.txt, and what each crate stands on: dependencies as they are used, groups and comments as crates_order.txt has them."""
    texts = {}
    for (home, path), text in new.items():
        texts.setdefault(home, [])
        if path.suffix in (".rt", ".antt"):
            texts[home].append((path, text))
    kit = {dep for _, deps in tree.old_lines.values() for dep in deps} - set(tree.names)
    order, text = [], (HERE / "crates_order.txt").read_text()
    for line in text.splitlines():
        order += [] if line.startswith("#") or not line.strip() else [line.strip()]
    missing = [crate for crate in texts if crate not in order]
    lines = text.splitlines()
    for crate in missing:
        before = neighbour(tree, crate, order)
        loud(f"crates.txt: {crate} is not in crates_order.txt; it stands behind {before}")
        lines.insert(lines.index(before) + 1, crate)
        order.insert(order.index(before) + 1, crate)
    libraries = set(texts) | kit
    deps = {crate: used_libraries(t, libraries) - {crate} - local_names(tree, crate, t) for crate, t in texts.items()}
    written = []
    for line in lines:
        if line.strip() in texts:
            crate = line.strip()
            names = [c for c in order if c in deps[crate]] + kit_order(tree, crate, deps[crate] & kit)
            options = option_words(tree, crate)
            written.append(" ".join([crate, *options]) + ":" + "".join(" " + n for n in names))
        elif line.startswith("#") or not line.strip():
            written.append(line)
    check_order(order, deps, texts)
    head, *groups = "\n".join(written).split("\n\n")
    groups = [head, *(group for group in groups if not group.split("\n")[-1].startswith("#"))]
    return "\n\n".join(groups) + "\n", deps


def neighbour(tree, crate, order):
    """The crate before it in the old list, by its new name."""
    at = tree.names.index(crate) if crate in tree.names else 0
    for old in reversed(tree.names[:at]):
        for new in (tree.table.whole.get(old, old), tree.table.first.get(old, old)):
            if new in order:
                return new
    return order[0]


def kit_order(tree, crate, names):
    known = [dep for _, deps in tree.old_lines.values() for dep in deps]
    return sorted(names, key=known.index)


def option_words(tree, crate):
    for old, (options, _) in tree.old_lines.items():
        if options and crate == tree.table.whole.get(old, old) and not tree.parted(old):
            return options
    return []


def check_order(order, deps, texts):
    """No crate stands on itself, and none has a module with the name of a library that it uses."""
    done, state = {}, []

    def visit(crate):
        if crate in state:
            loud("crates that stand on each other: " + " ".join(state[state.index(crate):] + [crate]))
            return
        if crate in done:
            return
        state.append(crate)
        for dep in sorted(deps.get(crate, ())):
            visit(dep)
        done[crate] = state.pop()
    for crate in order:
        visit(crate)
        for path, _ in texts.get(crate, ()):
            if path.parts[0] == "src" and path.stem in deps[crate]:
                loud(f"{crate}: its module {path.stem} has the name of a library that it uses")
