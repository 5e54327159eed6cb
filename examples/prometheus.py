"""A real Prometheus server for the examples, and what docs/grafana.json asks of one."""
import json
import os
import re
import socket
import subprocess
import time
import urllib.error
import urllib.parse
import urllib.request

DOCS = f"{os.path.dirname(os.path.dirname(os.path.realpath(__file__)))}/docs"
RULES = f"{DOCS}/prometheus-rules.yml"
DASHBOARD = f"{DOCS}/grafana.json"
PATIENCE = 30
# The rules are for scrapes every 5 seconds; an example has no time for that.
CONFIG = """\
global: {{scrape_interval: 200ms, scrape_timeout: 200ms, evaluation_interval: 200ms}}
rule_files: ["{rules}"]
scrape_configs: [{{job_name: olt, static_configs: [{{targets: ["127.0.0.1:{port}"]}}]}}]
"""
# What the variables of the dashboard stand for in a query.
VARIABLES = {"$job": "olt", "$instance": ".+", "$port": ".+", "$__rate_interval": "5s", "$__range": "1m"}
# A proxy of the environment is not for this machine.
OPENER = urllib.request.build_opener(urllib.request.ProxyHandler({}))
METRIC = re.compile(r"\bolt_[a-z_]+")
LABEL_VALUES = re.compile(r"label_values\((.+), ([a-z]+)\)")


def free_port():
    with socket.socket() as listener:
        listener.bind(("127.0.0.1", 0))
        return listener.getsockname()[1]


class Prometheus:
    """A server that scrapes the page at a port of this machine. It ends with the block."""

    def __init__(self, room, port):
        config = f"{room}/prometheus.yml"
        with open(config, "w", encoding="utf-8") as file:
            file.write(CONFIG.format(rules=RULES, port=port))
        self.address = f"127.0.0.1:{free_port()}"
        self.log = f"{room}/prometheus.log"
        command = ["prometheus", f"--config.file={config}", f"--storage.tsdb.path={room}/data", f"--web.listen-address={self.address}"]
        with open(self.log, "wb") as log:
            self.process = subprocess.Popen(command, stdin=subprocess.DEVNULL, stdout=log, stderr=log)

    def __enter__(self):
        return self

    def __exit__(self, *_fault):
        self.process.kill()
        self.process.wait()

    def wait_until_ready(self):
        end = time.monotonic() + PATIENCE
        while self.process.poll() is None and time.monotonic() < end:
            try:
                with OPENER.open(f"http://{self.address}/-/ready", timeout=PATIENCE):
                    return
            except (urllib.error.URLError, ConnectionError):
                time.sleep(0.05)
        with open(self.log, encoding="utf-8", errors="replace") as log:
            raise RuntimeError(f"prometheus does not start:\n{log.read()}")

    def get(self, path, **words):
        """The answer of the server's API. A query that it refuses raises an error with its text."""
        try:
            with OPENER.open(f"http://{self.address}/api/v1/{path}?{urllib.parse.urlencode(words)}", timeout=PATIENCE) as answer:
                return json.load(answer)["data"]
        except urllib.error.HTTPError as fault:
            raise RuntimeError(f"{path} {words}: {fault.read().decode()}") from fault

    def query(self, expression):
        """The series of an expression now: their labels and values."""
        return [(series["metric"], float(series["value"][1])) for series in self.get("query", query=expression)["result"]]

    def by_port(self, expression):
        """The values of an expression, by port."""
        return {labels["port"]: value for labels, value in self.query(expression)}

    def alerts(self):
        """The names and ports of the critical alerts that are pending or firing. The others depend on how busy the machine is."""
        labels = [alert["labels"] for alert in self.get("alerts")["alerts"]]
        return sorted((of["alertname"], of.get("port")) for of in labels if of["severity"] == "critical")


def dashboard():
    with open(DASHBOARD, encoding="utf-8") as file:
        return json.load(file)


def panels():
    """The panels of the dashboard but its headings."""
    return [panel for panel in dashboard()["panels"] if panel["type"] != "row"]


def filled(expression):
    """An expression of the dashboard with values for its variables."""
    for name, value in VARIABLES.items():
        expression = expression.replace(name, value)
    return expression


def expressions():
    """The title and the expression of each query of the dashboard."""
    return [(panel["title"], filled(target["expr"])) for panel in panels() for target in panel["targets"]]


def variables():
    """The metric and the label of each variable of the dashboard that is a query."""
    queries = [variable["query"]["query"] for variable in dashboard()["templating"]["list"] if variable["type"] == "query"]
    return [LABEL_VALUES.fullmatch(filled(query)).groups() for query in queries]


def metrics_of_dashboard():
    return {name for _title, expression in expressions() for name in METRIC.findall(expression)}


def metrics_of_rules():
    with open(RULES, encoding="utf-8") as file:
        return set(METRIC.findall(file.read()))
