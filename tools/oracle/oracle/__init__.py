"""A second implementation of `recycle_sql`, written from the same rules and
without its code.  Slow on purpose: every rule is spelled as its sentence is.
"""
import sys

sys.setrecursionlimit(20000)
