% Calls with goals behind them, 60,000 inside one another, and as many last calls.
depth(0).
depth(N) :- N > 0, M is N - 1, depth(M), true.
count(0, 0).
count(N, K) :- N > 0, M is N - 1, count(M, L), K is L + 1.
last(0).
last(N) :- N > 0, M is N - 1, last(M).
open(0).
open(N) :- N > 0, M is N - 1, open(M).
open(_).
