"""Tests of the built program, the C library, the Python package, the examples, the pages and the web page."""
import sys

sys.dont_write_bytecode = True
