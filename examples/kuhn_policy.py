#!/usr/bin/env python3
"""A policy of Kuhn poker as `to_dict` of OpenSpiel gives it, printed as a table for `gameshrink-tools pack`."""

# The card (0 is the jack) and the moves so far, p for pass and b for bet; then each action (0 pass, 1 bet) and its probability.
# A pass folds where there is a bet, and a bet calls it.
POLICY = {
    "0": [(0, 2 / 3), (1, 1 / 3)], "0pb": [(0, 1.0), (1, 0.0)], "0p": [(0, 2 / 3), (1, 1 / 3)], "0b": [(0, 1.0), (1, 0.0)],
    "1": [(0, 1.0), (1, 0.0)], "1pb": [(0, 1 / 3), (1, 2 / 3)], "1p": [(0, 1.0), (1, 0.0)], "1b": [(0, 2 / 3), (1, 1 / 3)],
    "2": [(0, 0.0), (1, 1.0)], "2pb": [(0, 0.0), (1, 1.0)], "2p": [(0, 0.0), (1, 1.0)], "2b": [(0, 0.0), (1, 1.0)],
}  # fmt: skip

print("player,line,hand,move,probability")
for state, shares in POLICY.items():
    hand, past = "JQK"[int(state[0])] + "s", state[1:]
    moves = "fc" if past.endswith("b") else "kb"
    for action, share in shares:
        print(1 + len(past) % 2, "/" + past.replace("p", "k"), hand, moves[action], share, sep=",")
