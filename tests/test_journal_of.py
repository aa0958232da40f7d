"""The journal that replies tell: where a statement has its ancestor, and nowhere else."""

from tests.auditing import journal
from tests.case import Case

from journal_of import ancestor_of

G, H = [["G", 1]], [["H", "it's"]]
# A statement, its further members, and the ancestor that it has.
STATEMENTS = [
    ("SELECT * FROM T WHERE ANCESTOR IS :1", {"args": [{"key": G}]}, G),
    ("select * from T where a = 1 and ancestor\n is :who.x", {"names": {"who.x": {"key": G}}}, G),
    ("SELECT * FROM T WHERE ANCESTOR IS KEY('H', 'it''s') AND a = 1", {}, H),
    ("SELECT * FROM T WHERE ANCESTOR IS KEY ( 'G' , 1 , 'H', ')' )", {}, [["G", 1], ["H", ")"]]),
    ("SELECT * FROM T WHERE a = 'x ANCESTOR IS KEY(''G'', 1)'", {}, None),
    ("SELECT * FROM T WHERE a = 'ANCESTOR IS :1' AND ANCESTOR IS KEY('G', 1)", {"args": [{"key": H}]}, G),
    ('SELECT * FROM "ANCESTOR IS :1" WHERE ANCESTOR IS :2', {"args": [{"key": H}, {"key": G}]}, G),
    ('SELECT * FROM T WHERE "ancestor" = 1', {}, None),
    ("SELECT * FROM T ORDER BY a", {}, None),
]


class Journal(Case):
    def test_ancestors_of_statements(self):
        for text, members, wanted in STATEMENTS:
            self.expect(text, ancestor_of({"op": "gql", "text": text, **members}), wanted)

    def test_a_statement_touches_its_ancestor(self):
        lines = (b'{"op":"begin"}\n{"op":"gql","text":"SELECT * FROM T WHERE a = \'ANCESTOR IS KEY(\'\'X\'\', 9)\' AND ANCESTOR IS KEY(\'G\', 1)"}\n'
                 b'{"op":"delete","key":[["G",2]]}\n{"op":"commit"}\n')
        replies = (b'{"client":0,"line":1,"ok":"begin"}\n{"client":0,"line":2,"ok":"gql","place":0,"results":[]}\n'
                   b'{"client":0,"key":[["G",2]],"line":3,"ok":"delete","place":0}\n{"client":0,"commit":1,"line":4,"ok":"commit"}\n')
        wanted = b'{"client":0,"commit":1,"touched":[[[["G",1]],0],[[["G",2]],0]],"writes":[{"delete":[["G",2]]}]}\n'
        self.expect("the journal", journal(lines, replies), wanted)
