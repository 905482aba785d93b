"""The agents of the two filters, and the talk with a filter."""
