"""The processes of a farm on one machine, and their sockets."""
