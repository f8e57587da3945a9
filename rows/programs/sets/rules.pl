member(X, [X|_]).
member(X, [_|L]) :- member(X, L).
union([], L, L).
union([X|L], M, N) :- member(X, M), !, union(L, M, N).
union([X|L], M, [X|N]) :- union(L, M, N).
intersection([], _, []).
intersection([X|L], M, N) :- ( member(X, M) -> N = [X|R] ; N = R ), intersection(L, M, R).
difference([], _, []).
difference([X|L], M, N) :- ( \+ member(X, M) -> N = [X|R] ; N = R ), difference(L, M, R).
to_set([], []).
to_set([X|L], S) :- member(X, L), !, to_set(L, S).
to_set([X|L], [X|S]) :- to_set(L, S).
included(L, M) :- \+ (member(X, L), \+ member(X, M)).
