primes(N, Ps) :- numbers(2, N, L), sieve(L, Ps).
numbers(I, N, []) :- I > N, !.
numbers(I, N, [I|L]) :- J is I + 1, numbers(J, N, L).
sieve([], []).
sieve([P|L], [P|Ps]) :- remove(P, L, M), sieve(M, Ps).
remove(_, [], []).
remove(P, [X|L], M) :- X mod P =:= 0, !, remove(P, L, M).
remove(P, [X|L], [X|M]) :- remove(P, L, M).
prime(2).
prime(N) :- N > 2, N mod 2 =\= 0, \+ factor(N, 3).
factor(N, F) :- N mod F =:= 0, !.
factor(N, F) :- F * F < N, G is F + 2, factor(N, G).
member(X, [X|_]).
member(X, [_|L]) :- member(X, L).
