"""Runs what asks the pages, with room for definitions that call themselves as often as a list is long."""
import sys
import threading

from syntax import Unread

ROOM = 1 << 29


def with_room(run):
    """Runs a function to its end. What it raises is raised here; of a page that cannot be run it is told why."""
    raised = []

    def guarded():
        try:
            run()
        except BaseException as error:
            raised.append(error)
    sys.setrecursionlimit(10 ** 6)
    threading.stack_size(ROOM)
    thread = threading.Thread(target=guarded)
    thread.start()
    thread.join()
    if raised and isinstance(raised[0], Unread):
        sys.exit(str(raised[0]))
    if raised:
        raise raised[0]
