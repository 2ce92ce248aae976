"""The lists that the program test_lists replays, made by tools/make_lists.py: a module for each folder of lists."""
