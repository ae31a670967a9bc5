"""The second program: document 01 and notes 1 to 5, 7 to 9 and 11 to 14 of document 02
written once more, in Python, for comparison; and the programs of the morning, deliver,
reconcile and query, by the rules that stand at the head of their modules.

It shares no code with the proved program. Every module is written from these
documents; "01" and "02" in the comments are those.
"""
