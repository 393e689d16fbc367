"""The language and its commands in plain Python, for readers first: the documents say it in prose, this says it so that
it runs.

It is slow: a relation is a loop over all candidates, without an index, and nothing is kept but the answers of backward
predicates.
"""
