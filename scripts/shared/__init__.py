"""What the scripts in Python share. Each module says in its first lines which of them it is for."""
