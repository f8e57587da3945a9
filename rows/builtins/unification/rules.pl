kind(variable, _).
kind(integer, 1).
kind(atom, a).
kind(empty_list, []).
kind(compound, f(_)).
kind(ground, f(a)).
kind(list, [a]).
kind(twice, f(X, X)).
