"""Unit tests of the Python in outside/ and bench/: python3 -m unittest discover -s outside/tests -t outside"""
