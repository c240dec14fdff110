"""The parts of `wrong_bodies.py`: crates and their edits, copies in which they are checked, the reading of a check, the record, and the runs that
show an edit wrong."""
