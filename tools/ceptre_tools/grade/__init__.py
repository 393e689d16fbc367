"""Tables of what is right in transcripts that many people hand in."""
