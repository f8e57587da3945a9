bubble(L, S) :- swap(L, M), !, bubble(M, S).
bubble(S, S).
swap([X, Y|L], [Y, X|L]) :- X > Y.
swap([X|L], [X|M]) :- swap(L, M).
slow(L, S) :- permutation(L, S), ordered(S), !.
ordered([]).
ordered([_]).
ordered([X, Y|L]) :- X =< Y, ordered([Y|L]).
select(X, [X|L], L).
select(X, [Y|L], [Y|M]) :- select(X, L, M).
permutation([], []).
permutation(L, [X|P]) :- select(X, L, M), permutation(M, P).
