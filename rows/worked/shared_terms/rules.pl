d(0, a).
d(N, f(T,T)) :- N > 0, M is N - 1, d(M, T).
