hanoi(0, _, _, _, []) :- !.
hanoi(N, A, B, C, Moves) :- M is N - 1, hanoi(M, A, C, B, Before), hanoi(M, C, B, A, After), append(Before, [A-B|After], Moves).
append([], L, L).
append([X|L], M, [X|N]) :- append(L, M, N).
length([], 0).
length([_|L], N) :- length(L, M), N is M + 1.
