between(L, H, L) :- L =< H.
between(L, H, X) :- L < H, M is L + 1, between(M, H, X).
triple(N, A, B, C) :- between(1, N, A), between(A, N, B), between(B, N, C), A * A + B * B =:= C * C.
change(0, _, []) :- !.
change(N, [C|Cs], [C|L]) :- N >= C, M is N - C, change(M, [C|Cs], L).
change(N, [_|Cs], L) :- change(N, Cs, L).
