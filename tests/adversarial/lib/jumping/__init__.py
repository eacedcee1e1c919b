"""Servers whose clocks are set, differ, or stand; partners of an older program, or of other settings."""
