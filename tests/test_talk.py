"""A talk with the server round by round, as a test of an application has it: each reply comes while the input stays open."""
from tests.case import Case, Talk

# A property of n numbers gives 1 + 2 n index rows, of which an entity may have 20,000.
NUMBERS = ",".join(str(number) for number in range(9999))
# The lines of each round, and the replies that are expected before the next one is written.
ROUNDS = [
    (['{"op":"put","entity":{"key":[["Task","a"]],"properties":{"n":5}}}'],
     ['{"client":0,"commit":1,"key":[["Task","a"]],"line":1,"ok":"put"}']),
    (['{"op":"query","kind":"Task"}', '{"op":"settle"}'],
     ['{"applied":[0],"client":0,"line":3,"ok":"query","results":[]}',
      '{"applied":[1],"client":0,"line":4,"ok":"settle","place":1}']),
    (['{"op":"query","kind":"Task"}'],
     ['{"applied":[1],"client":0,"line":6,"ok":"query","results":[{"key":[["Task","a"]],"properties":{"n":5}}]}']),
    (['{"op":"put","entity":{"key":[["Task","b"]],"properties":{"n":[%s]}}}' % NUMBERS,
      '{"op":"put","entity":{"key":[["Task","c"]],"properties":{"n":[%s,9999]}}}' % NUMBERS],
     ['{"client":0,"commit":2,"key":[["Task","b"]],"line":8,"ok":"put"}',
      '{"client":0,"count":20001,"error":7,"line":9,"name":"TooManyRows"}']),
]


class Rounds(Case):
    def test_each_round_is_answered_before_the_next(self):
        with Talk() as talk:
            for lines, expected in ROUNDS:
                replies = talk.round([line.encode() for line in lines])
                self.expect("the replies to a round", b"".join(replies).decode().splitlines(), expected)
                if len(replies) < len(lines):
                    break
        self.expect("status, error text, bytes behind the replies", talk.end, (0, "", b""))
