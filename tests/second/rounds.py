"""The morning round (02, note 13): a queue of table numbers, a list.

Every call answers first the number of the question that refused it, or 0, and
last the queue.
"""

TABLES = 200


# 02, note 13: "Up to 200 tables"; "a queue of table numbers 0 to 199, each at
# most once."
def is_right(queue: list[int]) -> bool:
    return (len(queue) <= TABLES
            and all(0 <= table < TABLES for table in queue)
            and len(set(queue)) == len(queue))


# 02, note 13: "A call takes the first b, or all if fewer, returns their numbers
# in that order, and puts them at the end in the same order." "A queue that breaks
# this gets 10, first." "A refused call takes none and returns the queue as it
# came." (number, taken, queue).
def handle(queue: list[int], b: int) -> tuple[int, list[int], list[int]]:
    if not is_right(queue):
        return 10, [], queue
    if not 1 <= b <= TABLES:
        return 30, [], queue
    taken = queue[:b]
    return 0, taken, queue[b:] + taken


# 02, note 13: "Tables join at the end"; 31: "for joining, is it not yet queued".
# (number, queue).
def join(queue: list[int], table: int) -> tuple[int, list[int]]:
    if not is_right(queue):
        return 10, queue
    if not 0 <= table < TABLES:
        return 30, queue
    if table in queue:
        return 31, queue
    return 0, queue + [table]


# 02, note 13: "and leave from anywhere, the rest keeping their order"; 31: "for
# leaving, is it queued". (number, queue).
def leave(queue: list[int], table: int) -> tuple[int, list[int]]:
    if not is_right(queue):
        return 10, queue
    if not 0 <= table < TABLES:
        return 30, queue
    if table not in queue:
        return 31, queue
    place = queue.index(table)
    return 0, queue[:place] + queue[place + 1:]
