"""Runs of COMMAND in crash states, several at once, and what came of them."""
