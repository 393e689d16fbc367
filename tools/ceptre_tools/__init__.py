"""What the scripts beside the program share: a reader of worlds, the program as a child, and a part for each script."""
