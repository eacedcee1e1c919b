"""Pairs that were apart, or tell each other much at once, and what each knows of leases afterwards."""
