"""The whole command line of gameshrink by the definitions: a reference to compare the program with, not a program to use.

It shares no code with the program, nor with the Python package of this repository. Each function is written from docs/FORMATS.md and docs/DEFINITIONS.md,
in the plainest way that ends soon on small games; a name in backquotes that opens a docstring is the definition in docs/DEFINITIONS.md that the
function computes. `python3 tests/reference COMMAND ..` runs it.

The modules, lowest first:

  refusals        faults and refusals
  json_text       JSON, read and written as serde_json does
  toml_text       TOML
  cards           decks, groups, ways to draw
  betting         betting trees and their text, limit betting
  ranking         strengths, categories, outcomes
  game            a game, its rules, the walk of its points and ends
  game_file       the game file, and the game in a strategy file
  signals         raw signals, deals, edges of the view tree
  classes         classes, losslessness, the coarsest lossless refinement
  isomorphism     ordered game isomorphism and the signal classes
  plans           plans over classes, their lifts, payoffs and verdicts
  answers         best answers, fictitious play, certificates
  simplex         rows of a list, Bland's path
  solution        the linear program of a game, its exact solution
  strategy_file   fractions, strategy files and certificates as texts
  command         the words, the commands, and their texts

Some ways are shorter than the definitions, and test_reference.py beside them compares them with brute force: isomorphic nodes are numbered from the
leaves up, in place of a search for bijections; classes are split until nothing changes, in place of looking at all refinements; gaps are found by
backward induction, in place of trying all plans; and the rows of a large table are changed from step to step, in place of being solved anew.
"""
