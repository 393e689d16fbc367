"""Transcripts shown step by step, and on which earlier steps each rests."""
