divisors(N, Ds) :- divisors(1, N, Ds).
divisors(D, N, []) :- D >= N, !.
divisors(D, N, [D|L]) :- N mod D =:= 0, !, E is D + 1, divisors(E, N, L).
divisors(D, N, L) :- E is D + 1, divisors(E, N, L).
perfect(N) :- divisors(N, Ds), sum(Ds, N).
sum([], 0).
sum([X|L], S) :- sum(L, T), S is X + T.
between(L, H, L) :- L =< H.
between(L, H, X) :- L < H, M is L + 1, between(M, H, X).
