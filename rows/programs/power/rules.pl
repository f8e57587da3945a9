power(_, 0, 1) :- !.
power(X, N, P) :- N mod 2 =:= 0, !, M is N // 2, power(X, M, Q), P is Q * Q.
power(X, N, P) :- M is N - 1, power(X, M, Q), P is X * Q.
modular(_, 0, _, 1) :- !.
modular(X, N, M, P) :- N mod 2 =:= 0, !, K is N // 2, modular(X, K, M, Q), P is Q * Q mod M.
modular(X, N, M, P) :- K is N - 1, modular(X, K, M, Q), P is X * Q mod M.
root(N, R) :- root(N, N, R).
root(N, X, X) :- X * X =< N, !.
root(N, X, R) :- Y is (X + N // X) // 2, root(N, Y, R).
