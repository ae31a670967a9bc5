"""Tests of the second program, of the comparisons and of the tools, without a built program."""
