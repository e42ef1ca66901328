"""`python3 -m adopt`."""

from .cli import main

main()
