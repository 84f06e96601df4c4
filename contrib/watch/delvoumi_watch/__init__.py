"""Watches the services of a sidecar: metrics for Prometheus, events as a stream, and a page to look at."""
