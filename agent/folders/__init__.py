"""The folders of commands: made of contents, kept as contents, held for one command at a time."""
