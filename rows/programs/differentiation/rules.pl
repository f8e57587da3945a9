d(X, X, 1) :- !.
d(C, _, 0) :- atomic(C), !.
d(U + V, X, A + B) :- d(U, X, A), d(V, X, B).
d(U - V, X, A - B) :- d(U, X, A), d(V, X, B).
d(U * V, X, A * V + U * B) :- d(U, X, A), d(V, X, B).
d(- U, X, - A) :- d(U, X, A).
d(sin(U), X, cos(U) * A) :- d(U, X, A).
d(power(U, N), X, N * power(U, M) * A) :- integer(N), M is N - 1, d(U, X, A).
s(A + B, C) :- s(A, X), s(B, Y), plus(X, Y, C), !.
s(A - B, C) :- s(A, X), s(B, Y), minus(X, Y, C), !.
s(A * B, C) :- s(A, X), s(B, Y), times(X, Y, C), !.
s(A, A).
plus(0, X, X).
plus(X, 0, X).
plus(X, Y, Z) :- integer(X), integer(Y), Z is X + Y.
plus(X, Y, X + Y).
minus(X, 0, X).
minus(X, X, 0).
minus(X, Y, X - Y).
times(0, _, 0).
times(_, 0, 0).
times(1, X, X).
times(X, 1, X).
times(X, Y, Z) :- integer(X), integer(Y), Z is X * Y.
times(X, Y, X * Y).
