"""Keeps the journals of a sidecar's services in files, checks them, and shows them."""
