"""Benchmarks: what the programs cost. Nothing here passes or fails."""
