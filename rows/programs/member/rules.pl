member(X, [X|_]).
member(X, [_|L]) :- member(X, L).
memberchk(X, L) :- once(member(X, L)).
