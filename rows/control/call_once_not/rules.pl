a(1). a(2). a(3).
by_call(X) :- call(( a(X), ! )).
by_call(behind).
by_call_cut(X) :- call(!), a(X).
by_call_cut(behind).
by_variable(X, G) :- G, a(X).
by_variable(behind, _).
by_once(X) :- once(( a(X), X > 1 )).
by_once(behind).
by_once_cut(X) :- once(!), a(X).
by_once_cut(behind).
by_not(X) :- \+ ( a(X), ! , fail ), X = free.
by_not(behind).
by_not_cut(X) :- \+ \+ !, a(X).
by_not_cut(behind).
kind(variable, _).
kind(integer, 3).
kind(atom, true).
kind(fails, fail).
kind(cut, !).
kind(unknown, nosuch).
kind(unknown_compound, nosuch(a, b)).
kind(list, [a]).
kind(conjunction, (true, true)).
kind(integer_right, (true, 3)).
kind(integer_left, (3, fail)).
kind(integer_behind_fail, (fail, 1)).
kind(integer_condition, (1 -> true)).
kind(integer_else, (true -> true ; 2)).
kind(variable_inside, (true, _)).
kind(variable_behind_fail, (fail, _)).
kind(variable_after_cut, (!, _)).
kind(integer_in_not, \+ 3).
kind(integer_in_call, call((a, 3))).
kind(program, a(2)).
kind(no_program, a(4)).
kind(neck, (a :- b)).
direct(G, yes) :- G.
direct(_, more).
