"""Runs of the program: played at a terminal, done again from a transcript, and sampled by many seeds."""
