"""Searches the states of a world: can a goal be reached, how, and from where not."""
