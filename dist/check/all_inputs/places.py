"""Where an object, its stack, its caller and the buffers of a call lie: at random, so that code cannot know the places
of a check. On the same seed every run of a call has the same places."""

import random

_random = random.Random()


def seed(text):
    _random.seed(text)


def place(least, room, align=1):
    """Returns an address of at least `least` and less than `room` bytes after it, a multiple of `align`."""
    return -(-(least + _random.randrange(room)) // align) * align
