"""Graphs and queries from seeds: random ones, broken ones, each field and place of a child, and large ones."""
