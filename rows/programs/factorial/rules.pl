fac(0, 1) :- !.
fac(N, F) :- N > 0, M is N - 1, fac(M, G), F is N * G.
fac_acc(N, F) :- fac_acc(N, 1, F).
fac_acc(0, F, F).
fac_acc(N, A, F) :- N > 0, B is A * N, M is N - 1, fac_acc(M, B, F).
