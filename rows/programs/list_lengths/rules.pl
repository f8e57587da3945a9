length([], 0).
length([_|L], N) :- length(L, M), N is M + 1.
of_length(0, []) :- !.
of_length(N, [_|L]) :- N > 0, M is N - 1, of_length(M, L).
last([X], X) :- !.
last([_|L], X) :- last(L, X).
nth(1, [X|_], X).
nth(N, [_|L], X) :- N > 1, M is N - 1, nth(M, L, X).
sum([], 0).
sum([X|L], S) :- sum(L, T), S is X + T.
max([X], X).
max([X|L], M) :- max(L, N), ( X > N -> M = X ; M = N ).
