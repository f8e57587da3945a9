% Goals of a session share one budget, of 20,000 where the script gives none; no catch/3 takes its end, and an answer before it is printed.
:- relation(r/1).
r(1). r(2).
p(1).
loop :- loop.
grow(N) :- M is N + 1, grow(M).
n(0).
n(N) :- N > 0, M is N - 1, n(M).
