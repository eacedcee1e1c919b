"""Servers whose directories are lost, put back from a copy, or that are begun and restarted without their partner."""
