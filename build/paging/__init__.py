"""What builds the page for a browser."""
