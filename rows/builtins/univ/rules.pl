kind(variable, _).
kind(integer, 3).
kind(atom, a).
kind(empty_list, []).
kind(compound, f(x, Y)).
kind(one_atom, [a]).
kind(one_integer, [3]).
kind(one_compound, [f(x)]).
kind(one_variable, [_]).
kind(one_nil, [[]]).
kind(several, [f, x, Y]).
kind(several_integer, [3, x]).
kind(several_compound, [f(x), y]).
kind(several_variable, [_, y]).
kind(partial, [f|_]).
kind(partial_integer, [3|_]).
kind(improper, [f|x]).
kind(improper_two, [f, x|y]).
kind(partial_after_two, [f, x|_]).
