pack([], []).
pack([X|L], [[X|Xs]|P]) :- take(X, L, Xs, R), pack(R, P).
take(X, [X|L], [X|Xs], R) :- !, take(X, L, Xs, R).
take(_, L, [], L).
lengths([], []).
lengths([[X|Xs]|P], [N-X|L]) :- count([X|Xs], N), lengths(P, L).
count([], 0).
count([_|L], N) :- count(L, M), N is M + 1.
decode([], []).
decode([0-_|L], D) :- !, decode(L, D).
decode([N-X|L], [X|D]) :- M is N - 1, decode([M-X|L], D).
