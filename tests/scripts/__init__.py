"""Generated scripts, and what they reach.

`generate.py` writes a script: its rounds are in `generator`. `coverage.py` counts what scripts and
their answers reached: `reached` follows them. Both know lines, bank and endings from the modules
beside them. docs/GENERATOR.md gives the rule.
"""
