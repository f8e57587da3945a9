insertion([], []).
insertion([X|L], S) :- insertion(L, T), insert(X, T, S).
insert(X, [Y|L], [Y|M]) :- X > Y, !, insert(X, L, M).
insert(X, L, [X|L]).
