nat(z).
nat(s(N)) :- nat(N).
add(z, N, N).
add(s(M), N, s(K)) :- add(M, N, K).
mul(z, _, z).
mul(s(M), N, K) :- mul(M, N, L), add(N, L, K).
less(z, s(_)).
less(s(M), s(N)) :- less(M, N).
int(z, 0).
int(s(N), I) :- int(N, J), I is J + 1.
