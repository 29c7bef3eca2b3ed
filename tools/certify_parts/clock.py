"""The one limit of a search, and what is told of it while it runs."""

import time

# how long a search takes at most, unless that is said
SECONDS = 20
# what a line begins with that tells which hart is searched
PROGRESS = "looking for states of hart"


class Clock:
    """So many seconds of the processor from now on, for all that is sought; `tells` is given the hart that is searched, and by which of how many ways."""

    def __init__(self, seconds, tells=None):
        self.seconds, self.ends, self.tells = seconds, time.process_time() + seconds, tells

    def is_over(self):
        return time.process_time() > self.ends

    def tell(self, hart, way, ways):
        if self.tells and not self.is_over():
            self.tells(hart, way, ways)
