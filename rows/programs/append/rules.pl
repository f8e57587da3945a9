append([], L, L).
append([X|L], M, [X|N]) :- append(L, M, N).
