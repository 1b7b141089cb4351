"""Looks at a page through a browser, or through a program for node that provides as much of a document as the page's script uses. Both have the same
methods: `all` gives the text and the attributes of elements by a selector, the other calls act on one of them as a person would."""

import html.parser
import json
import pathlib
import shutil
import subprocess
import tempfile

from ground import LONGEST, TESTS

try:
    from selenium import webdriver
    from selenium.common.exceptions import WebDriverException
    from selenium.webdriver.chrome.service import Service
    from selenium.webdriver.common.by import By
    from selenium.webdriver.common.keys import Keys
    from selenium.webdriver.support.ui import Select
except ImportError:
    webdriver = None
NODE, DRIVER = shutil.which("node"), shutil.which("chromedriver")
VOID = {"meta", "br", "input", "link", "img", "hr"}


class Tree(html.parser.HTMLParser):
    """The tree of a page: each element a list of its name, its attributes and its children."""

    def __init__(self, text):
        super().__init__()
        self.root = ["#top", {}, []]
        self._open = [self.root]
        self.feed(text)
        self.close()
        assert len(self._open) == 1, self._open[-1][:2]

    def handle_starttag(self, name, attributes):
        element = [name, dict(attributes), []]
        self._open[-1][2].append(element)
        if name not in VOID:
            self._open.append(element)

    def handle_startendtag(self, name, attributes):
        self._open[-1][2].append([name, dict(attributes), []])

    def handle_endtag(self, name):
        assert self._open.pop()[0] == name, name

    def handle_data(self, text):
        self._open[-1][2].append(text)


def elements(tree, name=None):
    """Yields the elements of a tree, or those of this name, in order."""
    for item in tree[2]:
        if isinstance(item, list):
            if name in (None, item[0]):
                yield item
            yield from elements(item, name)


def text_of(tree):
    """Returns the text of an element."""
    return "".join(item if isinstance(item, str) else text_of(item) for item in tree[2])


class StandIn:
    """The program for node."""

    def __init__(self):
        self._process = subprocess.Popen([NODE, TESTS / "stand_in.js"], stdin=subprocess.PIPE, stdout=subprocess.PIPE, text=True, encoding="utf-8")

    def show(self, text):
        self._ask("begin", Tree(text).root)

    def _ask(self, *words):
        self._process.stdin.write(json.dumps(words) + "\n")
        self._process.stdin.flush()
        told = json.loads(self._process.stdout.readline())
        if "fault" in told:
            raise AssertionError(told["fault"])
        return told["answer"]

    def all(self, selector):
        return [(item["text"], item["attributes"]) for item in self._ask("all", selector)]

    def click(self, selector, at=0):
        self._ask("click", selector, at)

    def press(self, selector, key, at=0):
        self._ask("press", selector, at, key)

    def pick(self, selector, index, at=0):
        self._ask("pick", selector, at, index)

    def type(self, selector, text, at=0):
        self._ask("type", selector, at, text)

    def close(self):
        self._process.stdin.close()
        self._process.wait()
        self._process.stdout.close()


def started(options):
    """Starts Chromium, with these options. Its driver waits a minute for it, which isn't enough on a busy machine: then it is started again."""
    for left in 4, 3, 2, 1, 0:
        try:
            return webdriver.Chrome(service=Service(DRIVER), options=options)
        except WebDriverException:
            if not left:
                raise


class Browser:
    """Headless Chromium."""

    def __init__(self):
        options = webdriver.ChromeOptions()
        for item in "--headless=new", "--no-sandbox", "--disable-gpu", "--disable-dev-shm-usage", "--window-size=1200,1000":
            options.add_argument(item)
        options.set_capability("goog:loggingPrefs", {"browser": "ALL"})
        # In milliseconds. By default a script has half a minute.
        options.timeouts = {"script": 1000 * LONGEST, "pageLoad": 1000 * LONGEST}
        self.driver = started(options)
        self._folder = tempfile.TemporaryDirectory()

    def show(self, text):
        path = pathlib.Path(self._folder.name, "page.html")
        path.write_text(text, encoding="utf-8")
        self.driver.get(path.as_uri())

    def _one(self, selector, at):
        return self.driver.find_elements(By.CSS_SELECTOR, selector)[at]

    def all(self, selector):
        script = """return [...document.querySelectorAll(arguments[0])].map(it =>
            [it.textContent, Object.fromEntries([...it.attributes].map(one => [one.name, one.value]))]);"""
        return [tuple(item) for item in self.driver.execute_script(script, selector)]

    def click(self, selector, at=0):
        self._one(selector, at).click()

    def press(self, selector, key, at=0):
        self._one(selector, at).send_keys(getattr(Keys, key.replace("Arrow", "Arrow_").upper(), key))

    def pick(self, selector, index, at=0):
        Select(self._one(selector, at)).select_by_index(index)

    def type(self, selector, text, at=0):
        self._one(selector, at).clear()
        self._one(selector, at).send_keys(text)

    def close(self):
        self.driver.quit()
        self._folder.cleanup()
