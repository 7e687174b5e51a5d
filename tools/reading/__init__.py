"""What the tools that read the sources share: definitions of `specs`, and clauses of functions."""
