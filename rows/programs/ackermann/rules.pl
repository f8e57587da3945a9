ack(0, N, R) :- !, R is N + 1.
ack(M, 0, R) :- !, L is M - 1, ack(L, 1, R).
ack(M, N, R) :- L is M - 1, K is N - 1, ack(M, K, S), ack(L, S, R).
