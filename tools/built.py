"""Where `rt run` leaves a program that it has proved and built, for the tools beside this file."""
import os

CRATES = os.path.join(os.path.dirname(os.path.abspath(__file__)), '..', 'crates')


def program(name):
    return os.path.join(CRATES, name, 'out', name)
