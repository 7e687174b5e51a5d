"""What tools/try-maildir is made of: a model of its own, the hands of a reader and of another client, and what goes wrong meanwhile."""
