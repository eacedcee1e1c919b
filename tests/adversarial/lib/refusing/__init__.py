"""The programs with each call that reaches the system refused in turn: what is refused, and the stories that are lived meanwhile."""
