"""Makers of inputs: what both programs are run on."""
