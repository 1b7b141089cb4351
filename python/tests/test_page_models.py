"""The data of a page's script: the models of several reports, and times of day."""

import json
import unittest

from commands import InFolder, planner
from ground import EXAMPLES
from looking import Tree, elements
from looking import text_of as text_in

import mpsim


def data_of(path):
    """Returns the data of a page's script."""
    return json.loads(text_in(next(element for element in elements(Tree(path.read_text()).root, "script") if element[1].get("id") == "data")))


class Models(InFolder):
    def test_a_model_for_each_report(self):
        """The box of a node shows the text of that run's model. If one model is given for reports of others, the number of servers reveals it."""
        trace, paths = [("calls", at, 9) for at in range(4)], []
        for count in 2, 3:
            model, report = self.folder / f"m{count}.txt", self.folder / f"r{count}.txt"
            behind = "tandem rest =1 / 1 =2 from ct\nforkjoin both =1 =2 | =3 from rest\n"
            model.write_text(f"model 2\nsource calls\ntrunk ct {count} d from calls\n{behind}")
            report.write_text("".join(mpsim.run(model, trace).lines()))
            paths += [(report, model)]
        out, (reports, models) = self.folder / "page.html", zip(*paths)
        asked = lambda: [item["asked"]["ct"] for item in data_of(out)["runs"]]
        self.assertEqual(planner("page", *reports, "--model", models[0], "--model", models[1], "--out", out), (0, "", ""))
        self.assertEqual(asked(), ["trunk 2 d", "trunk 3 d"])
        line = "ct of r3 doesn't have the number of servers of the model, and its box shows the text of the model; give --model once per report"
        self.assertEqual(planner("page", *reports, "--model", models[0], "--out", out), (0, "", f"mpplan: warning: {line}\n"))
        # If a name in braces stands for the number, nothing is reported.
        braces = self.file("braces.txt", models[0].read_text().replace("ct 2", "ct {agents}"))
        self.assertEqual(planner("page", *reports, "--model", braces, "--out", out), (0, "", ""))
        line = "3 models for 2 reports: give --model once, or once per report"
        self.assertEqual(planner("page", *reports, *["--model", models[0]] * 3, "--out", out), (1, "", f"mpplan: {line}\n"))
        self.assertEqual(planner("page", reports[0], "--model", models[0], "--out", models[0])[0], 1)

    def test_time_of_the_day(self):
        out = self.folder / "page.html"
        words = "page", EXAMPLES / "callcentre" / "jobs.txt", "--out", out, "--tick", "500ms", "--start", "2026-03-02T08:00:30"
        self.assertEqual(planner(*words), (0, "", ""))
        data = data_of(out)
        self.assertEqual((data["tick"], data["date"], data["start"]), (0.5, "2026-03-02", 28830))


if __name__ == "__main__":
    unittest.main()
