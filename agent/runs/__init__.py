"""One command under one lease: its caller, its processes, its end."""
