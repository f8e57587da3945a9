next(N, M) :- N mod 2 =:= 0, !, M is N // 2.
next(N, M) :- M is 3 * N + 1.
steps(1, 0) :- !.
steps(N, S) :- next(N, M), steps(M, T), S is T + 1.
row(1, [1]) :- !.
row(N, [N|L]) :- next(N, M), row(M, L).
