"""The words of `farm`, and what each command does."""
