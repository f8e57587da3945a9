:- relation(road/3, [1]).
road(a, b, 4). road(a, c, 1). road(c, b, 2). road(b, d, 5). road(c, d, 8). road(d, e, 3).
way(X, X, _, 0, [X]).
way(X, Z, Seen, D, [X|P]) :- road(X, Y, N), \+ member(Y, Seen), way(Y, Z, [Y|Seen], M, P), D is N + M.
shortest(X, Y, D, P) :- findall(D0-P0, way(X, Y, [X], D0, P0), L), least(L, D-P).
least([X|L], M) :- least(L, X, M).
least([], M, M).
least([D-P|L], E-_, M) :- D < E, !, least(L, D-P, M).
least([_|L], X, M) :- least(L, X, M).
member(X, [X|_]).
member(X, [_|L]) :- member(X, L).
