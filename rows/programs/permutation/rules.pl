select(X, [X|L], L).
select(X, [Y|L], [Y|M]) :- select(X, L, M).
permutation([], []).
permutation(L, [X|P]) :- select(X, L, M), permutation(M, P).
count([], 0).
count([_|L], N) :- count(L, M), N is M + 1.
