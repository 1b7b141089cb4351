"""docs/API*.md are what check/api_page.py writes from the docstrings, and have every public name with a docstring."""
import re

from api_page import PAGES, file_of, public, text_of
from programs import Check


class Reference(Check):
    def test_the_pages_are_those_of_the_docstrings(self):
        for page in PAGES:
            self.same(f"docs/{page}.md (check/api_page.py writes it)", file_of(page).read_text(), text_of(page))

    def test_each_module_is_on_a_page(self):
        self.same("modules", sorted(module for _, own, _ in PAGES.values() for module in own), sorted(public()))

    def test_each_name_and_what_it_is(self):
        """A signature or an error, and a sentence."""
        every = "".join(file_of(page).read_text() for page in PAGES)
        parts = re.split(r"^### ", every, flags=re.MULTILINE)[1:]
        found = {part.split("\n", 1)[0]: part.split("\n", 1)[1].strip() for part in parts}
        names = [name for names in public().values() for name in names]
        self.holds(f"few names: {names}", len(names) > 30)
        for name in [*names, "Queue", "Group", "Trace", "with_pools"]:
            text = re.sub(r"```.*?```", "", found.get(name, ""), flags=re.DOTALL).strip()
            self.holds(f"{name} isn't explained", len(text.split()) > 3)
