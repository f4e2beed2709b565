"""A test bench around the core of a TEE kernel: conversations with it, and the tools that write, run and explain what it is told.

    core            a core that is booted, and calls on it that are made to their end
    live            conversations, line by line, and a driver that makes calls
    supplicant      what the normal world does for calls that ask for something
    arg             message arguments, and replies to requests
    description     boot descriptions
    formats         the tables of docs/formats.md
    pytest_plugin   fixtures for pytest
"""

from tulgexar import words  # noqa: F401  (says at once where Python is too old)
