% Each built-in, and each control construct that checks its arguments, with each kind of term at each place. A term that
% is too large, of 8,191 nodes, is made inside catch/3, since that counts its goal.
:- relation(p/1).
:- clauses(c/1).
p(1).
c(1).
kind(unbound). kind(integer). kind(atom). kind(compound). kind(list). kind(partial). kind(large).
term(unbound, _).
term(integer, 7).
term(atom, ada).
term(compound, f(x, _)).
term(list, [a, b]).
term(partial, [a|_]).
term(large, T) :- doubled(12, T).
doubled(0, a).
doubled(N, g(T, T)) :- N > 0, M is N - 1, doubled(M, T).
outcome(B, K, R) :- catch(( term(K, T), does(B, T) -> R = true ; R = fail ), error(E, _), R = E).

test(var). test(nonvar). test(integer). test(atom). test(compound). test(atomic). test(callable). test(ground).
does(var, T) :- var(T).
does(nonvar, T) :- nonvar(T).
does(integer, T) :- integer(T).
does(atom, T) :- atom(T).
does(compound, T) :- compound(T).
does(atomic, T) :- atomic(T).
does(callable, T) :- callable(T).
does(ground, T) :- ground(T).

comparison('T=f'). comparison('f=T'). comparison('T\\=f'). comparison('f\\=T'). comparison('T==f'). comparison('f==T').
comparison('T\\==f'). comparison('f\\==T'). comparison('T@<f'). comparison('f@<T'). comparison('T@=<f'). comparison('f@=<T').
comparison('T@>f'). comparison('f@>T'). comparison('T@>=f'). comparison('f@>=T').
does('T=f', T) :- T = f(x, y).
does('f=T', T) :- f(x, y) = T.
does('T\\=f', T) :- T \= f(x, y).
does('f\\=T', T) :- f(x, y) \= T.
does('T==f', T) :- T == f(x, y).
does('f==T', T) :- f(x, y) == T.
does('T\\==f', T) :- T \== f(x, y).
does('f\\==T', T) :- f(x, y) \== T.
does('T@<f', T) :- T @< f(x, y).
does('f@<T', T) :- f(x, y) @< T.
does('T@=<f', T) :- T @=< f(x, y).
does('f@=<T', T) :- f(x, y) @=< T.
does('T@>f', T) :- T @> f(x, y).
does('f@>T', T) :- f(x, y) @> T.
does('T@>=f', T) :- T @>= f(x, y).
does('f@>=T', T) :- f(x, y) @>= T.

part(functor1). part(functor2). part(functor3). part(functor2_of_f). part(functor3_of_f). part(arg1). part(arg2). part(arg3).
part(univ1). part(univ2). part(univ2_of_f). part(copy1). part(copy2).
does(functor1, T) :- functor(T, _, 2).
does(functor2, T) :- functor(_, T, 1).
does(functor3, T) :- functor(_, g, T).
does(functor2_of_f, T) :- functor(f(x, y), T, _).
does(functor3_of_f, T) :- functor(f(x, y), _, T).
does(arg1, T) :- arg(T, f(x, y), _).
does(arg2, T) :- arg(1, T, _).
does(arg3, T) :- arg(1, f(x, y), T).
does(univ1, T) :- T =.. [f|_].
does(univ2, T) :- _ =.. T.
does(univ2_of_f, T) :- f(x, y) =.. T.
does(copy1, T) :- copy_term(T, _).
does(copy2, T) :- copy_term(f(x, y), T).

value(is1). value(is2). value('T=:=7'). value('7=:=T'). value('T=\\=7'). value('7=\\=T'). value('T<7'). value('7<T').
value('T=<7'). value('7=<T'). value('T>7'). value('7>T'). value('T>=7'). value('7>=T').
does(is1, T) :- T is 7.
does(is2, T) :- _ is T.
does('T=:=7', T) :- T =:= 7.
does('7=:=T', T) :- 7 =:= T.
does('T=\\=7', T) :- T =\= 7.
does('7=\\=T', T) :- 7 =\= T.
does('T<7', T) :- T < 7.
does('7<T', T) :- 7 < T.
does('T=<7', T) :- T =< 7.
does('7=<T', T) :- 7 =< T.
does('T>7', T) :- T > 7.
does('7>T', T) :- 7 > T.
does('T>=7', T) :- T >= 7.
does('7>=T', T) :- 7 >= T.

change(insert_tuple). change(delete_tuple). change(insert_p). change(delete_p).
change(assertz). change(asserta). change(retract). change(assertz_c). change(asserta_c). change(retract_c).
change(assertz_body). change(asserta_body). change(retract_body).
does(insert_tuple, T) :- insert_tuple(T).
does(delete_tuple, T) :- delete_tuple(T).
does(insert_p, T) :- insert_tuple(p(T)).
does(delete_p, T) :- delete_tuple(p(T)).
does(assertz, T) :- assertz(T).
does(asserta, T) :- asserta(T).
does(retract, T) :- retract(T).
does(assertz_c, T) :- assertz(c(T)).
does(asserta_c, T) :- asserta(c(T)).
does(retract_c, T) :- retract(c(T)).
does(assertz_body, T) :- assertz((c(9) :- T)).
does(asserta_body, T) :- asserta((c(9) :- T)).
does(retract_body, T) :- retract((c(9) :- T)).

control(call). control(once). control(not). control(findall1). control(findall2). control(findall3). control(throw).
control(catch1). control(catch2). control(catch3). control(p). control(c). control(condition). control(body).
does(call, T) :- call(T).
does(once, T) :- once(T).
does(not, T) :- \+ T.
does(findall1, T) :- findall(T, true, _).
does(findall2, T) :- findall(x, T, _).
does(findall3, T) :- findall(x, true, T).
does(throw, T) :- catch(throw(T), B, true), B == ada.
does(catch1, T) :- catch(T, error(existence_error(_, _), _), fail).
does(catch2, T) :- catch(catch(throw(f(x, y)), T, true), f(_, _), fail).
does(catch3, T) :- catch(throw(b), b, T).
does(p, T) :- p(T).
does(c, T) :- c(T).
does(condition, T) :- ( T -> true ; true ).
does(body, T) :- T.
