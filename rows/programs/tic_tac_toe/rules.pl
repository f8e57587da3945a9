line([1, 2, 3]). line([4, 5, 6]). line([7, 8, 9]). line([1, 4, 7]). line([2, 5, 8]). line([3, 6, 9]). line([1, 5, 9]). line([3, 5, 7]).
wins(P, B) :- line(L), \+ ( member(I, L), \+ ( arg(I, B, X), X == P ) ).
threat(P, B, I) :- line(L), select(I, L, [J, K]), arg(I, B, X), var(X), arg(J, B, Y), Y == P, arg(K, B, Z), Z == P.
member(X, [X|_]).
member(X, [_|L]) :- member(X, L).
select(X, [X|L], L).
select(X, [Y|L], [Y|M]) :- select(X, L, M).
