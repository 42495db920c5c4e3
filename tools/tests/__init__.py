"""Tests by unittest: a module for each thing that is tested. tools/test runs them."""
