a(1). a(2). a(3).
rethrow(B) :- catch(throw(B), other, true).
deep(0) :- throw(bottom).
deep(N) :- N > 0, M is N - 1, deep(M).
deep_open(0) :- throw(bottom).
deep_open(N) :- N > 0, M is N - 1, deep_open(M), true ; N < 0.
cut_goal(X) :- catch(( a(X), ! ), _, true).
cut_goal(behind).
cut_recovery(X) :- catch(throw(b), b, ( a(X), ! )).
cut_recovery(behind).
cut_behind(X) :- catch(a(X), _, true), !.
cut_behind(never).
answer_then_ball(X) :- catch(a(X), _, X = wrong), X >= 2, throw(out(X)).
kind(integer, 3).
kind(atom, ball).
kind(empty_list, []).
kind(compound, b(1, x)).
kind(open, b(X, Y, X)).
kind(list, [1, 2]).
kind(error, error(mine, here)).
kind(pair, (a, b)).
