% insert_tuple/1 and delete_tuple/1 with each kind of argument.
:- relation(p/1).
:- relation(q/2).
:- clauses(c/1).
p(1).
helper(1).
kind(variable, _).
kind(integer, 7).
kind(unknown_atom, nosuch).
kind(unknown, nosuch(1, 2)).
kind(other_arity, p(1, 2)).
kind(no_arguments, p).
kind(clauses, c(1)).
kind(program, helper(1)).
kind(builtin, atom(a)).
kind(control, (a, b)).
kind(cut, !).
kind(store, insert_tuple(p(1))).
kind(list, [a]).
kind(there, p(1)).
kind(new, p(2)).
kind(not_ground, p(_)).
kind(not_ground_inside, p(f(a, _))).
kind(twice, p(2)).
kind(compound, p(f(a))).
kind(quoted, p('A b')).
kind(negative, p(-1)).
kind(listed, p([1, 2])).
kind(binary, q(a, b)).
