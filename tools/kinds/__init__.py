"""Generates the parts of the code, its contracts and the documents that follow from the table of kinds in kinds.txt."""
