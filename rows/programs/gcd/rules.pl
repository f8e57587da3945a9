gcd(X, 0, X) :- !.
gcd(X, Y, G) :- Z is X mod Y, gcd(Y, Z, G).
lcm(X, Y, L) :- gcd(X, Y, G), L is X // G * Y.
extended(A, 0, A, 1, 0) :- !.
extended(A, B, G, X, Y) :- Q is A // B, R is A rem B, extended(B, R, G, S, T), X = T, Y is S - Q * T.
