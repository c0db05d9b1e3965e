"""Helpers that suites, tools and benches share."""
