"""The packages of a release: what is in each, archives that have the same bytes each time, and the sheet PROVED.txt."""
