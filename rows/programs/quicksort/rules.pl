sort_quick([], []).
sort_quick([X|L], S) :- split(X, L, A, B), sort_quick(A, SA), sort_quick(B, SB), append(SA, [X|SB], S).
split(_, [], [], []).
split(X, [Y|L], [Y|A], B) :- Y @< X, !, split(X, L, A, B).
split(X, [Y|L], A, [Y|B]) :- split(X, L, A, B).
append([], L, L).
append([X|L], M, [X|N]) :- append(L, M, N).
