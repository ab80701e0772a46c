"""What `watch` shows, for Prometheus."""
from workbench import told
from workbench.faults import NOT_READ, Fault


class Collector:
    """The metrics of the latest picture, made when they are asked for."""

    def __init__(self, shown, core):
        self.shown, self.core = shown, core

    def collect(self):
        counter, gauge = self.core.CounterMetricFamily, self.core.GaugeMetricFamily
        frames = counter("yelunnavi_frames", "frames by verdict", labels=["vl", "network", "verdict"])
        amiss = gauge("yelunnavi_amiss", "what is amiss, by the words of --fail-on", labels=["vl", "what"])
        delay = gauge("yelunnavi_delay_us", "how much later B's copy comes", labels=["vl", "of"])
        age = gauge("yelunnavi_port_age_us", "age of the newest message of a sampling port", labels=["port"])
        waiting = gauge("yelunnavi_port_most_waiting", "messages that waited at most in a queue", labels=["port"])
        lost = counter("yelunnavi_tap_lost", "packets that the tap lost", labels=["network"])
        for link in self.shown.get("links", ()):
            self.add_link(link, frames, amiss, delay)
            for port in link["ports"]:
                if port["kind"] == "queuing":
                    waiting.add_metric([port["port"]], port["most"])
                elif port["age_us"] is not None:
                    age.add_metric([port["port"]], port["age_us"])
        for net, count in zip("AB", self.shown.get("lost_by_tap") or ()):
            lost.add_metric([net], count)
        return [frames, amiss, delay, age, waiting, lost]

    @staticmethod
    def add_link(link, frames, amiss, delay):
        vl = str(link["vl"])
        for net, about in link["networks"].items():
            for kind, count in about["verdicts"].items():
                frames.add_metric([vl, net, kind], count)
        for word, count in told.counted(link).items():
            amiss.add_metric([vl, word], count)
        for of in ("least", "median", "most_of_99", "greatest"):
            if link["delays_us"][of] is not None:
                delay.add_metric([vl, of], link["delays_us"][of])


def serve(port, shown):
    """Serves them at this port of 127.0.0.1."""
    try:
        from prometheus_client import core, registry, start_http_server
    except ImportError:
        raise Fault("no python3-prometheus-client: apt-get install --no-install-recommends python3-prometheus-client",
                    NOT_READ) from None
    found = registry.CollectorRegistry()
    found.register(Collector(shown, core))
    try:
        start_http_server(port, "127.0.0.1", found)
    except OSError as error:
        raise Fault(f"port {port}: not served: {error.strerror}", NOT_READ) from None
