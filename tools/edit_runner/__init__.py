"""Tries edits that must fail, many of them in one check. `tools/batch_edits.py` is the command."""
