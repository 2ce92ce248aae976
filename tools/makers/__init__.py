"""Inputs to compare with and to make lists of: `written` by hand or at random from a seed, none with an answer."""
