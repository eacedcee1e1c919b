"""Two daemons that are killed at random instants, their clients, and what is held against their journals at the end."""
