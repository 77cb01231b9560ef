"""Tests of the planner's tool.

Run at the root of the repository, after ./build:
    PYTHONPATH=python python3 -m unittest discover -s python/tests -t python
"""
