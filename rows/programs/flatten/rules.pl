flatten([], []) :- !.
flatten([X|L], F) :- !, flatten(X, A), flatten(L, B), append(A, B, F).
flatten(X, [X]).
append([], L, L).
append([X|L], M, [X|N]) :- append(L, M, N).
