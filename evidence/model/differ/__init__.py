"""Runs a case through a program and through the model, and makes a difference small."""
