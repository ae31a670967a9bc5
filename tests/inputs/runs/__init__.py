"""The runs of the program terms that both programs make."""
