"""The words of the command line. Each module has `configure(parser)`, which adds its arguments, and sets `run`, which does the work."""
