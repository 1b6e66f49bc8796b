"""The tools of the command line, for people who write and compare planners."""
