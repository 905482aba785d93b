"""Builds: which folders a Dockerfile wants, and the builders behind one interface."""
