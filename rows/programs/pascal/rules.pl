row(0, [1]) :- !.
row(N, [1|R]) :- M is N - 1, row(M, L), sums(L, R).
sums([X], [X]).
sums([X, Y|L], [Z|R]) :- Z is X + Y, sums([Y|L], R).
rows(N, N, []) :- !.
rows(I, N, [R|Rs]) :- row(I, R), J is I + 1, rows(J, N, Rs).
