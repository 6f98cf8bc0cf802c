"""The alerts and the dashboard over the figures of epmd-metrics: by promtool, and by what epmd-metrics prints."""
import json
import os
import re

import programs
from programs import CONTRIB, TOP, Case, needs, read, write
from recorded import start
from test_metrics import Measured, Played, counters_of_the_daemon, figures

RULES = os.path.join(CONTRIB, "prometheus", "epmd.rules.yml")
DASHBOARD = os.path.join(CONTRIB, "grafana", "epmd.json")
FIGURE = re.compile(r"\bepmd_\w+")
ALERTS = {"EpmdDown": "epmd_up == 0", "EpmdRecordingStandsStill": "epmd_recording_moves == 0 and epmd_up == 1",
          "EpmdFiguresAreOld": 'time() - node_textfile_mtime_seconds{file=~".*epmd[.]prom"} > 300 or epmd_figures_age_seconds > 300',
          "EpmdRefusalsRise": "increase(epmd_refusals_total[10m]) > 10", "EpmdNamesNearLimit": "sum without (state) (epmd_names) >= ",
          "EpmdConnectionsNearLimit": "epmd_connections >= "}
MINUTES = {2: "two", 5: "five", 10: "ten"}


def alerts():
    """The expression of each alert, which is one line."""
    return dict(re.findall(r"(?m)^      - alert: (\w+)\n        expr: (.*)$", read(RULES)))


def panels():
    return json.loads(read(DASHBOARD))["panels"]


def queries():
    """What each target asks for all hosts, as the dashboard does it."""
    return [target["expr"].replace("$instance", ".+") for panel in panels() for target in panel["targets"]]


class Promtool(Case):
    """Tests that may ask promtool, which takes JSON for YAML."""

    def takes(self, *words, value=None, **more):
        """promtool ends well with these words, and with a file that holds a value behind them. Returns what it prints."""
        if value is not None:
            write(self.inside("value.yml"), json.dumps(value))
            words = *words, self.inside("value.yml")
        done = programs.run(["promtool", *words], **more)
        self.assertEqual(done.returncode, 0, done.stdout + done.stderr)
        return done.stdout + done.stderr


class Figures(Measured, Promtool):
    def setUp(self):
        super().setUp()
        self.write(start())
        self.write("".join(f"{name} 1\n" for name in counters_of_the_daemon()).encode(), ".figures")
        self.texts = []
        for words in self.recorded, ("-figures", self.path + ".figures"):
            with Played(does=lambda: self.add(b"\0")) as played:
                self.texts.append(self.printed(*words, port=played.port))
        self.series = figures(self.texts[0]) | figures(self.texts[1])
        self.names = {re.sub("{.*", "", each) for each in self.series}

    def test_each_figure_of_an_alert_or_a_panel_is_printed_and_each_that_is_printed_is_shown(self):
        for query in [*alerts().values(), *queries()]:
            self.assertLessEqual(set(FIGURE.findall(query)), self.names, query)
        self.assertEqual(set(FIGURE.findall(" ".join(queries()))), self.names)

    def test_the_manual_page_has_each_figure(self):
        page = read(TOP, "docs", "epmd-metrics.1")
        listed = re.findall(r"(?m)^\.It (epmd_.*)$", page)
        self.assertEqual(set(FIGURE.findall(" ".join(listed))), self.names)

    @needs("promtool")
    def test_promtool_takes_what_is_printed(self):
        for text in self.texts:
            self.assertEqual(self.takes("check", "metrics", input=text), "")

    def labelled(self, series):
        """A series as it is stored once a node exporter was asked for it."""
        name, _, labels = series.partition("{")
        return f'{name}{{instance="one:9100",job="node"' + ("," + labels if labels else "}")

    @needs("promtool")
    def test_each_panel_has_a_line_for_each_series_of_its_figures(self):
        checks = []
        for query in queries():
            figure, = set(FIGURE.findall(query))
            count = 1 if query.startswith("sum ") else sum(each.split("{")[0] == figure for each in self.series)
            self.assertGreater(count, 0)
            checks.append({"expr": f"count({query})", "eval_time": "30m", "exp_samples": [{"labels": "{}", "value": count}]})
        stored = [{"series": self.labelled(each), "values": f"{value:f}x30"} for each, value in self.series.items()]
        self.takes("test", "rules", value={"tests": [{"interval": "1m", "input_series": stored, "promql_expr_test": checks}]})


class Alerts(Promtool):
    def test_there_are_six_and_each_is_tried(self):
        self.assertEqual({name: re.sub(r"(?<=>= )\d+$", "", query) for name, query in alerts().items()}, ALERTS)
        tried = read(RULES.replace(".rules.", ".test."))
        for name in ALERTS:
            self.assertRegex(tried, rf"- alertname: {name}\n +eval_time: \w+\n +exp_alerts:\n +- exp_labels: ")
            self.assertRegex(tried, rf"{{alertname: {name}, eval_time: \w+, exp_alerts: \[\]}}")

    def test_the_manual_page_has_each_with_its_number(self):
        page = read(TOP, "docs", "epmd-metrics.1")
        self.assertEqual(set(re.findall(r"(?m)^\.It (Epmd\w+)$", page)), set(ALERTS))
        for name, minutes in re.findall(r"- alert: (\w+)\n.*\n +for: (\d+)m\n", read(RULES)):
            self.assertRegex(page, rf"\n\.It {name}\n(?:For|.* for) {MINUTES[int(minutes)]} minutes\b")
        for name in ("EpmdNamesNearLimit", "EpmdConnectionsNearLimit"):
            number = int(alerts()[name].rpartition(" ")[2])
            self.assertRegex(page, rf"\n\.It {name}\nFor \w+ minutes {number:,} ")

    @needs("promtool")
    def test_promtool_takes_them(self):
        self.assertIn(f" {len(ALERTS)} rules found", self.takes("check", "rules", RULES))

    @needs("promtool")
    def test_each_fires_and_an_hour_of_normal_life_is_quiet(self):
        self.takes("test", "rules", RULES.replace(".rules.", ".test."))


class Dashboard(Promtool):
    def test_panels_have_numbers_of_their_own_and_none_covers_another(self):
        self.assertEqual([panel["id"] for panel in panels()], list(range(1, len(panels()) + 1)))
        for panel in panels():
            self.assertLessEqual(panel["gridPos"]["x"] + panel["gridPos"]["w"], 24)
        cells = [(panel["id"], x, y) for panel in panels() for at in [panel["gridPos"]]
                 for x in range(at["x"], at["x"] + at["w"]) for y in range(at["y"], at["y"] + at["h"])]
        self.assertEqual(len({(x, y) for _, x, y in cells}), len(cells))

    def test_each_panel_asks_the_chosen_source_for_the_chosen_hosts(self):
        board = json.loads(read(DASHBOARD))
        self.assertEqual([each["name"] for each in board["templating"]["list"]], ["datasource", "instance"])
        for panel in board["panels"]:
            self.assertEqual(panel["datasource"], {"type": "prometheus", "uid": "${datasource}"})
            self.assertTrue(panel["title"] and panel["description"])
            for target in panel["targets"]:
                self.assertEqual(target["expr"].count('{instance=~"$instance"}'), len(FIGURE.findall(target["expr"])))

    @needs("promtool")
    def test_promtool_takes_each_query(self):
        rules = [{"record": f"of:query:{number}", "expr": query} for number, query in enumerate(queries())]
        self.assertIn(f" {len(rules)} rules found", self.takes("check", "rules", value={"groups": [{"name": "queries", "rules": rules}]}))
