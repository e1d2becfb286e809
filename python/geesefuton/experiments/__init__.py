"""Tournaments: deals, matches and the comparison of agents."""
