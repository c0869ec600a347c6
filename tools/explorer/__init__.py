"""The explorer: a script or a trace as one page that is stepped through in a browser."""
