"""The rules of docs/RULES.md a second time, in Python, and the cases that the programs run."""
