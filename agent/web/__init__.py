"""The page with the farm's status."""
