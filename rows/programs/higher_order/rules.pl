% call/1 over terms made by =..
apply(F, Args) :- F =.. L, append(L, Args, M), G =.. M, call(G).
map(_, [], []).
map(F, [X|L], [Y|M]) :- apply(F, [X, Y]), map(F, L, M).
filter(_, [], []).
filter(F, [X|L], R) :- ( apply(F, [X]) -> R = [X|S] ; R = S ), filter(F, L, S).
fold(_, [], A, A).
fold(F, [X|L], A, B) :- apply(F, [X, A, C]), fold(F, L, C, B).
double(X, Y) :- Y is 2 * X.
plus(X, Y, Z) :- Z is X + Y.
odd(X) :- X mod 2 =:= 1.
less(N, X) :- X < N.
append([], L, L).
append([X|L], M, [X|N]) :- append(L, M, N).
for_all(C, G) :- \+ ( call(C), \+ call(G) ).
