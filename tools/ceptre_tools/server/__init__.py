"""A language server: what editors ask of worlds and transcripts, by the protocol's version 3.17."""
