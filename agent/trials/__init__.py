"""Trials of whole farms, over the farm's program: what a test of some seconds can't show."""
