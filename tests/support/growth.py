"""How much longer a work takes with a longer input. One that takes time in proportion stays below MOST_RATIO, whatever
else the machine does, and one that takes the square does not."""
from typing import Callable

# How many times as long the longer input is, and how much longer it takes at most: twice what is in proportion, and a
# quarter of what a square would take.
LONGER, MOST_RATIO = 8, 16
# How often both are tried, of which the least times count: until they took so many seconds, but some times at least.
MOST_TRIES, LEAST_TRIES, ENOUGH_SECONDS = 20, 3, 60


def ratio(short: Callable[[], float], long: Callable[[], float]) -> float:
    """How much longer the long one takes. Each runs once, and returns the processor time that it took."""
    least = least_of_long = float("inf")
    spent = 0.0
    for tried in range(1, MOST_TRIES + 1):
        took, took_long = short(), long()
        spent += took + took_long
        least, least_of_long = min(least, took), min(least_of_long, took_long)
        if least_of_long <= MOST_RATIO * least or tried >= LEAST_TRIES and spent > ENOUGH_SECONDS:
            break
    return least_of_long / least
