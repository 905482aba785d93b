"""Where contents lie, how they last, and what is forgotten."""
