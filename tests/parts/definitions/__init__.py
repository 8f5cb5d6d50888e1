"""The definition of a session, run: the text of the crates' definitions, transcribed into this language and computed on stored sessions.

    tree.py         the parts of an expression and of a pattern
    reading.py      the text of a file of definitions: words, expressions, clauses, what it uses
    enums.py        the enums of a crate's sources, with the names of their fields
    compiling.py    definitions become functions, clause by clause
    keeping.py      which functions keep what they gave, so that a long session does not compute it again
    words.py        the words of the language's own library and of the kit's crates, by hand
    scripts.py      scripts and reports become events, and what the definitions give becomes a report
    sessions.py     a session: the actions of a script, and whether a list of actions or a report is one
    changing.py     changed reports, journals and lists of actions
    by_hand.py      sessions worked by hand, tests/by-hand.txt
    showing.py      actions for people

It is a test of the definitions and no proof: nobody proved that the transcription means what the language means.
"""
