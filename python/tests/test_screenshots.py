"""tools/screenshots: which pages it shows to chromium. A script replaces chromium: it keeps the page under the name of the picture."""

import os
import pathlib
import shlex
import shutil
import struct
import subprocess
import sys
import tempfile
import unittest

from ground import EXAMPLES, ROOT, Test, nodes_of, stand_in, text_of
from looking import Tree, elements
from looking import text_of as text_in

CHROMIUM = f"""exec {shlex.quote(sys.executable)} -B -c '
import shutil, sys, urllib.parse
(out,) = (word[13:] for word in sys.argv if word.startswith("--screenshot="))
(page,) = (word[7:] for word in sys.argv if word.startswith("file://"))
shutil.copy(urllib.parse.unquote(page), out)' "$@\""""


class Screenshots(Test):
    def test_pages(self):
        with tempfile.TemporaryDirectory() as folder:
            stand_in(folder, "chromium", CHROMIUM)
            settings = {**os.environ, "PATH": f"{folder}:{os.environ['PATH']}"}
            subprocess.run([sys.executable, "-B", ROOT / "tools" / "screenshots", folder], check=True, env=settings)
            self.assertEqual(sorted(os.listdir(folder)), ["callcentre.png", "chromium", "sweep.png"])
            call, sweep = (Tree(pathlib.Path(folder, f"{item}.png").read_text()).root for item in ("callcentre", "sweep"))
        found = {element[1]["data-node"]: text_in(element) for element in elements(call, "tr") if "data-node" in element[1]}
        for node in nodes_of(text_of(EXAMPLES, "callcentre", "report.txt")):
            self.assertTrue(found[node["name"]].startswith(f"{node['name']}{node['kind']}{node['in']}{node['out']}{node['lost']}"), found)
        run = next(element for element in elements(sweep, "select") if element[1]["id"] == "run")
        self.assertEqual([text_in(element) for element in elements(run, "option")], [str(number) for number in range(8, 16)])

    @unittest.skipUnless(shutil.which("chromium"), "Chromium isn't there")
    def test_pictures(self):
        """Those in docs have the size of the ones that Chromium makes, and none is large."""
        with tempfile.TemporaryDirectory() as folder:
            ran = subprocess.run([sys.executable, "-B", ROOT / "tools" / "screenshots", folder], stderr=subprocess.PIPE)
            self.assertEqual((ran.returncode, ran.stderr), (0, b""))
            for name, size in ("callcentre", (1200, 1930)), ("sweep", (1200, 1250)):
                for path in pathlib.Path(folder, f"{name}.png"), ROOT / "docs" / f"{name}.png":
                    picture = path.read_bytes()
                    self.assertEqual((picture[:8], struct.unpack(">II", picture[16:24])), (b"\x89PNG\r\n\x1a\n", size))
                    self.assertLess(len(picture), 200_000)

    def test_without_chromium(self):
        words = [sys.executable, "-B", ROOT / "tools" / "screenshots", "/nowhere"]
        ran = subprocess.run(words, env={**os.environ, "PATH": "/nowhere"}, stderr=subprocess.PIPE)
        self.assertEqual((ran.returncode, ran.stderr), (1, b"screenshots: chromium is missing\n"))


if __name__ == "__main__":
    unittest.main()
