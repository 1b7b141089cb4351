#!/usr/bin/env python3
"""Writes docs/API*.md, the reference of the Python package, from its docstrings.

usage: check/api_page.py     in any directory

Run it whenever a signature or a docstring changes: `check/run api` compares the pages with the sources.
"""
import ast
import pathlib
import re
import textwrap

ROOT = pathlib.Path(__file__).resolve().parent.parent
SOURCES = ROOT / "python" / "src" / "mpsim"
# Each page: its title; the modules whose names are attributes of the package; and modules whose other names are public too.
PAGES = {
    "API": ("Python API: runs, models and traces", ["runs", "exports.prepare", "inputs", "builder", "model", "errors"], ["traces.trace"]),
    "API_REPORTS": ("Python API: reports and sweeps", ["report", "node_visits", "lines", "sweeps.results"], ["report"]),
    "API_AGENTS": ("Python API: agents", [], ["agents.groups", "agents.rosters", "agents.staffing", "agents.plans", "agents.queues", "agents.pools"]),
}
HEAD = (
    "`check/api_page.py` writes this page from the docstrings of the package. [PYTHON.md](PYTHON.md) is the guide; the other pages are {others}. "
    "{what}"
)
OWN = "Names are attributes of `mpsim`, unless the heading names the module to import them from."
FROM = "Import names from the module that the heading names."


def file_of(page):
    """Returns the file of a page."""
    return ROOT / "docs" / f"{page}.md"


def tree_of(module):
    """Returns the syntax of a module, by its name in the package."""
    path = SOURCES.joinpath(*module.split("."))
    return ast.parse((path.with_suffix(".py") if path.with_suffix(".py").is_file() else path / "__init__.py").read_text())


def public():
    """Returns the names that are attributes of the package, by module (dict of lists)."""
    block = next(it for it in tree_of("__init__").body if isinstance(it, ast.Assign) and getattr(it.targets[0], "id", "") == "_MODULES")
    found = {}
    for name, module in ast.literal_eval(block.value).items():
        found.setdefault(module, []).append(name)
    return found


def shown(text):
    """Returns a docstring as Markdown: examples in blocks, and names in angle brackets as text."""
    parts = []
    for part in re.split(r"\n\s*\n", text):
        lines = part.split("\n")
        begin = next((at for at, line in enumerate(lines) if line.startswith(">>>")), len(lines))
        if begin:
            plain = "\n".join(lines[:begin])
            items = re.match(r"[-*] ", plain)
            parts.append(plain if items else textwrap.fill(" ".join(lines[:begin]), 120, break_long_words=False, break_on_hyphens=False))
        if begin < len(lines):
            example = "\n".join(lines[begin:])
            if parts and parts[-1].startswith("```\n>>>") and begin == 0:
                parts[-1] = f"{parts[-1][:-4]}\n\n{example}\n```"
            else:
                parts.append(f"```\n{example}\n```")
    return "\n\n".join(parts)


def signature(node, of=None):
    """Returns the head of a function or a method without `self`."""
    arguments = ast.unparse(node.args)
    if of and not any(getattr(it, "id", "") == "staticmethod" for it in node.decorator_list):
        arguments = re.sub(r"^(self|cls)(, /)?(, )?", "", arguments)
    name = of if node.name == "__init__" else f"{of}.{node.name}" if of else node.name
    result = f" -> {ast.unparse(node.returns)}" if node.returns and node.name != "__init__" else ""
    return textwrap.fill(f"{name}({arguments}){result}", 116, subsequent_indent="    ", break_long_words=False, break_on_hyphens=False)


def is_property(node):
    return any(getattr(it, "id", "") == "property" for it in node.decorator_list)


def parts_of(node, level):
    """Yields the parts of the page about a function or a class."""
    yield f"{'#' * level} {node.name}"
    if isinstance(node, ast.FunctionDef):
        yield f"```\n{signature(node)}\n```"
    made = [it for it in node.body if isinstance(it, ast.FunctionDef) and it.name == "__init__"] if isinstance(node, ast.ClassDef) else []
    yield from (f"```\n{signature(it, node.name)}\n```" for it in made)
    if isinstance(node, ast.ClassDef) and any(getattr(it, "id", "") == "NamedTuple" for it in node.bases):
        fields = [f"{it.target.id}: {ast.unparse(it.annotation)}" for it in node.body if isinstance(it, ast.AnnAssign)]
        yield f"```\n{textwrap.fill(f'{node.name}({chr(44).join(fields)})'.replace(chr(44), ', '), 116, subsequent_indent='    ')}\n```"
    yield shown(ast.get_docstring(node) or "")
    for it in node.body if isinstance(node, ast.ClassDef) else ():
        said = ast.get_docstring(it) if isinstance(it, ast.FunctionDef) else None
        if said and not it.name.startswith("_"):
            yield f"**`{node.name}.{it.name}`**" if is_property(it) else f"```\n{signature(it, node.name)}\n```"
            yield shown(said)


def text_of(page):
    """Returns the text of a page."""
    title, own, others = PAGES[page]
    links = " and ".join(f"[{it}.md]({it}.md)" for it in PAGES if it != page)
    head = HEAD.format(others=links, what=OWN if own else FROM)
    parts, known = [f"# {title}", textwrap.fill(head, 120, break_long_words=False, break_on_hyphens=False)], public()
    for module in own:
        tree = tree_of(module)
        parts += [f"## mpsim: {module}", shown(ast.get_docstring(tree))]
        defined = {it.name: it for it in tree.body if isinstance(it, (ast.FunctionDef, ast.ClassDef))}
        for name in known[module]:
            parts += parts_of(defined[name], 3)
    for module in others:
        tree = tree_of(module)
        parts += [f"## mpsim.{module}", shown(ast.get_docstring(tree))]
        for it in tree.body:
            if isinstance(it, (ast.FunctionDef, ast.ClassDef)) and not it.name.startswith("_") and it.name not in known.get(module, ()):
                parts += parts_of(it, 3)
    return "\n\n".join(part for part in parts if part) + "\n"


if __name__ == "__main__":
    for name in PAGES:
        file_of(name).write_text(text_of(name))
