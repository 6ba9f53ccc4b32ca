"""Questions about one dump, and their answers."""
