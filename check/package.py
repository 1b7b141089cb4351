"""Reads which modules of the Python package import which others, at any place in a file, and finds cycles among them."""
import ast


def modules_in(folder):
    """Returns the modules below a directory that holds a package: a dict of paths by name, such as `mpsim.page.tables`. A package has the name of its
    directory."""
    found = {}
    for path in sorted(folder.rglob("*.py")):
        parts = path.relative_to(folder.parent).with_suffix("").parts
        found[".".join(parts[:-1] if parts[-1] == "__init__" else parts)] = path
    return found


def imports_of(folder):
    """Returns the modules (set of str) that each module of a package imports, by its name: at the top, inside functions and classes, but not under
    `if TYPE_CHECKING`, which never runs. Importing a module also imports the packages that contain it, except those that contain the importer."""
    modules, found = modules_in(folder), {}
    for name, path in modules.items():
        package = name if path.name == "__init__.py" else name.rpartition(".")[0]
        targets = {target for item in _run_by(ast.parse(path.read_text())) for target in _targets(item, package, modules)}
        around = {name.rsplit(".", cut)[0] for cut in range(name.count(".") + 1)}
        found[name] = {part for target in targets for part in _parts(target) if part in modules and (part == target or part not in around)} - {name}
    return found


def _parts(name):
    """Returns a module's name and those of the packages that contain it."""
    words = name.split(".")
    return [".".join(words[:count]) for count in range(1, len(words) + 1)]


def _run_by(tree):
    """Yields the import statements of a tree that may run."""
    if isinstance(tree, (ast.Import, ast.ImportFrom)):
        yield tree
    elif isinstance(tree, ast.If) and isinstance(tree.test, ast.Name) and tree.test.id == "TYPE_CHECKING":
        for item in tree.orelse:
            yield from _run_by(item)
    else:
        for item in ast.iter_child_nodes(tree):
            yield from _run_by(item)


def _targets(item, package, modules):
    """Yields the modules that an import statement in a package names, directly or as the home of a name."""
    if isinstance(item, ast.Import):
        yield from (alias.name for alias in item.names)
        return
    base = _base_of(item, package)
    for alias in item.names:
        yield f"{base}.{alias.name}" if f"{base}.{alias.name}" in modules else base


def lacking_in(folder):
    """Yields the names (str) that a module of a package imports from another, by a relative import, which has no such name."""
    modules = modules_in(folder)
    defined = {name: _defined_in(ast.parse(path.read_text())) for name, path in modules.items()}
    for name, path in modules.items():
        package = name if path.name == "__init__.py" else name.rpartition(".")[0]
        for item in ast.walk(ast.parse(path.read_text())):
            for alias in item.names if isinstance(item, ast.ImportFrom) and item.level else ():
                base = _base_of(item, package)
                if f"{base}.{alias.name}" not in modules and alias.name not in defined.get(base, ()):
                    yield f"{name} imports {alias.name} from {base}"


def _defined_in(tree):
    """Returns the names (set of str) that a module's text defines at its top."""
    stored = {item.id for part in tree.body for item in ast.walk(part) if isinstance(item, ast.Name) and isinstance(item.ctx, ast.Store)}
    stored |= {part.name for part in tree.body if isinstance(part, (ast.FunctionDef, ast.ClassDef))}
    return stored | {alias.asname or alias.name for part in tree.body if isinstance(part, ast.ImportFrom) for alias in part.names}


def _base_of(item, package):
    """Returns the module that an import statement in a package names after `from`."""
    words = package.split(".")
    return ".".join([*words[: len(words) + 1 - item.level], *([item.module] if item.module else [])]) if item.level else item.module


def cycles_in(imports):
    """Returns the groups (list of sorted lists of str) of modules that import one another, directly or through others."""
    reached = {name: _reached(name, imports) for name in imports}
    groups = {tuple(sorted({name} | {other for other in reached[name] if name in reached[other]})) for name in imports if name in reached[name]}
    return sorted(map(list, groups))


def _reached(name, imports):
    """Returns the modules (set of str) that a module imports, directly or through others."""
    found, left = set(), [name]
    while left:
        more = imports[left.pop()] - found
        found |= more
        left += more
    return found
