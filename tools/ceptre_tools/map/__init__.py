"""Pictures of a world, for Graphviz."""
