subset([], []).
subset([X|L], [X|M]) :- subset(L, M).
subset([_|L], M) :- subset(L, M).
combination(0, _, []) :- !.
combination(N, [X|L], [X|C]) :- M is N - 1, combination(M, L, C).
combination(N, [_|L], C) :- combination(N, L, C).
