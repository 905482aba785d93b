"""What goes from process to process: lines, and what agents tell each other beside them."""
