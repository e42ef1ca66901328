"""Tests of tsoq-adopt."""
