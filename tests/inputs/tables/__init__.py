"""The scripts of table calls and what they must print."""
