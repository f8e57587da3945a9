:- relation(move/3, [1]).
:- relation(final/1).
move(even, 0, even). move(even, 1, odd). move(odd, 0, odd). move(odd, 1, even).
final(even).
accepts(Word) :- run(even, Word).
run(S, []) :- final(S).
run(S, [C|W]) :- move(S, C, T), run(T, W).
word(0, []).
word(N, [_|W]) :- N > 0, M is N - 1, word(M, W).
