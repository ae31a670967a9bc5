"""Tests of the built programs, of the calls for other languages and of the page."""
