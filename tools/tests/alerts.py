"""Tests of examples/prometheus_alerts.yml: the metrics and labels that it names are those of a server, and the table of docs/OPERATING.md names only these."""

import re
import unittest

from .clients import library
from .common import TOP
from .service import python, server

ALERTS = TOP / "examples/prometheus_alerts.yml"
PAGE = TOP / "docs/OPERATING.md"
NAME = re.compile(r"\bbetable_[a-z0-9_]+")


def setUpModule() -> None:
    library()


def alerts() -> dict[str, str]:
    """The alerts with their expressions."""
    text = re.sub(r"^#.*\n", "", ALERTS.read_text(), flags=re.MULTILINE)
    return dict(re.findall(r"^      - alert: (\w+)\n        expr: (.*)\n", text, flags=re.MULTILINE))


class Alerts(unittest.TestCase):
    def test_each_alert_has_an_expression_and_says_what_it_means(self) -> None:
        text = ALERTS.read_text()
        found = alerts()
        self.assertEqual((text.count("- alert: "), text.count("annotations: {summary: ")), (len(found), len(found)))
        self.assertGreaterEqual(len(found), 10)
        for name, expression in found.items():
            self.assertEqual([expression.count(one) for one in "([{"], [expression.count(one) for one in ")]}"], name)
            self.assertTrue(NAME.search(expression) or expression.startswith("up{"), name)

    @unittest.skipIf(python() is None, "aiohttp is not installed: the server is not tested")
    def test_the_metrics_are_those_of_the_server(self) -> None:
        with server() as found:
            for path in ("/none", "/row?key=1"):
                found.ask("GET", path)
            text = found.ask("GET", "/metrics")[2].decode()
        names = {line.split("{")[0].split(" ")[0] for line in text.splitlines() if not line.startswith("#")}
        labels = set(re.findall(r'[{,](\w+)="', text))
        for name, expression in alerts().items():
            self.assertEqual(set(NAME.findall(re.sub(r"\{[^}]*\}", "", expression))) - names, set(), name)
            used = set(re.findall(r"[{,] *(\w+)=", expression))
            self.assertEqual(used - labels, {"job"} if expression.startswith("up{") else set(), name)
        self.assertEqual(set(NAME.findall(PAGE.read_text())) - names, set())


if __name__ == "__main__":
    unittest.main()
