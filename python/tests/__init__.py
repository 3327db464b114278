"""The tests of the package."""

from .support import set_program

set_program()
