"""Circuits for people: texts, jobs, runs and pictures of circuits, over the proved engine.

    python3 -m bakebutton --help

docs/CIRCUITS.md has the text form and the commands. engine.py has the calls over bytes, for a program of yours.
"""
