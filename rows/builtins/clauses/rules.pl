% assertz/1, asserta/1 and retract/1 with each kind of argument.
:- clauses(c/1).
:- clauses(c/2).
:- relation(p/1).
c(1).
helper(1).
kind(variable, _).
kind(integer, 7).
kind(unknown_atom, nosuch).
kind(unknown, nosuch(1)).
kind(relation, p(1)).
kind(program, helper(1)).
kind(builtin, atom(a)).
kind(control, (a, b)).
kind(body_alone, (:- c(1))).
kind(list, [a]).
kind(fact, c(2)).
kind(fact_again, c(2)).
kind(fact_open, c(_)).
kind(head_variable, (_ :- true)).
kind(head_integer, (3 :- true)).
kind(head_unknown, (nosuch :- true)).
kind(head_relation, (p(1) :- true)).
kind(rule, (c(X) :- X = r)).
kind(body_variable, (c(v) :- _)).
kind(body_integer, (c(i) :- 3)).
kind(body_pair, (c(i) :- true, 3)).
kind(body_cut, (c(k) :- !)).
kind(body_list, (c(l) :- [a])).
kind(binary, c(a, b)).
kind(binary_rule, (c(A, B) :- c(A), c(B))).
