max_red(X, Y, X) :- X >= Y, !.
max_red(_, Y, Y).
max_green(X, Y, X) :- X >= Y, !.
max_green(X, Y, Y) :- X < Y.
default(X, V) :- known(X, V), !.
default(_, none).
known(a, 1). known(a, 2). known(b, 3).
not_member(_, []) :- !.
not_member(X, [X|_]) :- !, fail.
not_member(X, [_|L]) :- not_member(X, L).
first_even(L, X) :- member(X, L), X mod 2 =:= 0, !.
member(X, [X|_]).
member(X, [_|L]) :- member(X, L).
if_then(C, T, _) :- call(C), !, call(T).
if_then(_, _, E) :- call(E).
