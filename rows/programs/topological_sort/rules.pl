:- relation(before/2, [1, 2]).
before(socks, shoes). before(trousers, shoes). before(trousers, belt). before(shirt, belt). before(shirt, tie). before(tie, jacket). before(belt, jacket).
order([], []).
order(Left, [X|L]) :- select(X, Left, Rest), \+ ( before(Y, X), member(Y, Rest) ), !, order(Rest, L).
select(X, [X|L], L).
select(X, [Y|L], [Y|M]) :- select(X, L, M).
member(X, [X|_]).
member(X, [_|L]) :- member(X, L).
