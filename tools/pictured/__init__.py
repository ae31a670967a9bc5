"""The pictures of docs/pictures, drawn from the answers of the second program."""
