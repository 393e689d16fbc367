"""Worlds and transcripts as pages that play them in a browser."""
