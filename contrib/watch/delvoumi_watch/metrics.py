"""The metrics, with the names that Resilience4j gives to its own, so that dashboards for these work."""

from collections.abc import Iterable

from prometheus_client import CollectorRegistry, generate_latest
from prometheus_client.core import CounterMetricFamily, GaugeMetricFamily, Metric, SummaryMetricFamily
from prometheus_client.registry import Collector

from .watcher import Watcher

STATES = ("CLOSED", "OPEN", "HALF_OPEN", "DISABLED", "METRICS_ONLY", "FORCED_OPEN")
BREAKER = "resilience4j_circuitbreaker"
BULKHEAD = "resilience4j_bulkhead"


class Metrics(Collector):
    """Collects the metrics of all services that are watched."""

    def __init__(self, watcher: Watcher) -> None:
        self._watcher = watcher
        self._registry = CollectorRegistry()
        self._registry.register(self)

    def text(self) -> bytes:
        """Returns the metrics in Prometheus' format."""
        return generate_latest(self._registry)

    def collect(self) -> Iterable[Metric]:
        with self._watcher.lock:
            return [*self._readings(), *self._counts(), *self._own()]

    def _readings(self) -> list[Metric]:
        """What the last reading of `state` says. A service that can't be asked has none of these."""
        state = GaugeMetricFamily(f"{BREAKER}_state", "The state of the breaker", labels=["name", "state"])
        failure = GaugeMetricFamily(f"{BREAKER}_failure_rate", "The failure rate in percent, or -1", labels=["name"])
        slow = GaugeMetricFamily(
            f"{BREAKER}_slow_call_rate", "The rate of slow calls in percent, or -1", labels=["name"]
        )
        buffered = GaugeMetricFamily(f"{BREAKER}_buffered_calls", "Calls in the window", labels=["name", "kind"])
        slow_calls = GaugeMetricFamily(f"{BREAKER}_slow_calls", "Slow calls in the window", labels=["name", "kind"])
        free = GaugeMetricFamily(f"{BULKHEAD}_available_concurrent_calls", "Free places", labels=["name"])
        most = GaugeMetricFamily(f"{BULKHEAD}_max_allowed_concurrent_calls", "All places", labels=["name"])
        for service in self._watcher.services:
            shown = None if service.trouble else service.state
            if shown is None:
                continue
            for each in STATES:
                state.add_metric([service.name, each.lower()], float(shown["state"] == each))
            failure.add_metric([service.name], shown["failureRate"])
            slow.add_metric([service.name], shown["slowRate"])
            buffered.add_metric([service.name, "failed"], shown["failed"])
            buffered.add_metric([service.name, "successful"], shown["total"] - shown["failed"])
            slow_calls.add_metric([service.name, "all"], shown["slow"])
            free.add_metric([service.name], shown["free"])
            most.add_metric([service.name], shown["free"] + shown["open"])
        return [state, failure, slow, buffered, slow_calls, free, most]

    def _counts(self) -> list[Metric]:
        """What was counted over the entries of the journals."""
        calls = SummaryMetricFamily(f"{BREAKER}_calls_seconds", "Calls that were reported", labels=["name", "kind"])
        total = CounterMetricFamily(f"{BREAKER}_calls", "Calls that were reported", labels=["name", "kind"])
        not_permitted = CounterMetricFamily(
            f"{BREAKER}_not_permitted_calls", "Calls that the breaker refused", labels=["name", "kind"]
        )
        for service in self._watcher.services:
            for kind in ("successful", "failed", "ignored"):
                calls.add_metric([service.name, kind], service.calls[kind], service.seconds[kind])
                total.add_metric([service.name, kind], service.calls[kind])
            not_permitted.add_metric([service.name, "not_permitted"], service.refused[31])
        return [calls, total, not_permitted]

    def _own(self) -> list[Metric]:
        """What Resilience4j has no name for."""
        full = CounterMetricFamily("delvoumi_bulkhead_full_calls", "Calls that the bulkhead refused", labels=["name"])
        fates = CounterMetricFamily("delvoumi_tickets_ended", "Tickets that ended", labels=["name", "fate"])
        entries = CounterMetricFamily("delvoumi_journal_entries", "Entries that were seen", labels=["name", "event"])
        changes = CounterMetricFamily("delvoumi_state_changes", "Changes to a state", labels=["name", "state"])
        missed = CounterMetricFamily("delvoumi_missed_entries", "Entries that were not seen", labels=["name"])
        restarts = CounterMetricFamily("delvoumi_restarts", "Restarts of the sidecar", labels=["name"])
        is_up = GaugeMetricFamily("delvoumi_up", "Whether the service could be asked", labels=["name"])
        missing = GaugeMetricFamily(
            "delvoumi_service_missing", "Whether the sidecar answers that it has no such service", labels=["name"]
        )
        held = GaugeMetricFamily(
            "delvoumi_journal_held_entries", "Entries that the sidecar holds, 65536 at most", labels=["name"]
        )
        tickets = GaugeMetricFamily("delvoumi_open_tickets", "Open tickets", labels=["name"])
        version = GaugeMetricFamily("delvoumi_classifier_version", "The current version", labels=["name"])
        budget = GaugeMetricFamily("delvoumi_classifier_budget", "The most steps that it takes", labels=["name"])
        period = GaugeMetricFamily("delvoumi_period", "The number of the period", labels=["name"])
        for service in self._watcher.services:
            full.add_metric([service.name], service.refused[32])
            for fate in ("recorded", "ignored", "off", "stale", "released"):
                fates.add_metric([service.name, fate], service.fates[fate])
            for event in ("acquire", "report", "release", "install", "transition", "reset"):
                entries.add_metric([service.name, event], service.entries[event])
            for state in STATES:
                changes.add_metric([service.name, state.lower()], service.transitions[state])
            missed.add_metric([service.name], service.missed)
            restarts.add_metric([service.name], service.restarts)
            is_up.add_metric([service.name], float(not service.trouble))
            missing.add_metric([service.name], float(service.is_missing))
            if service.state is not None and not service.trouble:
                held.add_metric([service.name], service.held)
                for metric, key in ((tickets, "open"), (version, "version"), (budget, "budget"), (period, "period")):
                    metric.add_metric([service.name], service.state[key])
        counts = [full, fates, entries, changes, missed, restarts]
        return [*counts, is_up, missing, held, tickets, version, budget, period]
