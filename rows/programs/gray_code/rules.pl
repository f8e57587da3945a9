gray(0, [[]]) :- !.
gray(N, C) :- M is N - 1, gray(M, D), reverse(D, [], E), prefix(0, D, A), prefix(1, E, B), append(A, B, C).
prefix(_, [], []).
prefix(X, [L|Ls], [[X|L]|Ms]) :- prefix(X, Ls, Ms).
reverse([], R, R).
reverse([X|L], A, R) :- reverse(L, [X|A], R).
append([], L, L).
append([X|L], M, [X|N]) :- append(L, M, N).
