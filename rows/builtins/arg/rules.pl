kind(variable, _).
kind(zero, 0).
kind(one, 1).
kind(two, 2).
kind(three, 3).
kind(negative, -1).
kind(largest, 2305843009213693951).
kind(atom, a).
kind(empty_list, []).
kind(compound, f(x, Y)).
kind(list, [a]).
