"""Servers whose calls to the system take long, and whose clocks step: what does that to them, and the cases."""
