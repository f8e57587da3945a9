% Patterns with segments.
match([], []).
match([var(X)|P], W) :- append(X, R, W), match(P, R).
match([A|P], [A|R]) :- atom(A), match(P, R).
append([], L, L).
append([X|L], M, [X|N]) :- append(L, M, N).
rule([i, feel|T], [why, do, you, feel|T]) :- T = [_|_].
rule(S, [tell, me, more, about, your, X]) :- match([var(_), my, var([X|_])], S).
rule(_, [go, on]).
answer(S, A) :- rule(S, A), !.
