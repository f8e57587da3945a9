% Who works where, and who may lead whom.
:- relation(employee/4, [1]).     % number, name, department, pay; the number is the key
:- relation(department/2, [1]).   % number, name
:- relation(leads/2).             % the number of a leader, and that of a member

department(10, tools).
department(20, sales).
employee(1, ada, 10, 5200).
employee(2, bob, 10, 4100).
employee(3, cy, 20, 3900).
employee(4, dee, 20, 4000).
leads(1, 2).
leads(2, 4).
leads(4, 3).

works_in(Name, Department) :- employee(_, Name, D, _), department(D, Department).

% Whoever stands above somebody, at whatever distance.
above(Leader, Member) :-
    employee(L, Leader, _, _),
    below(L, M),
    employee(M, Member, _, _).
below(L, M) :- leads(L, M).
below(L, M) :- leads(L, K), below(K, M).

pay_of(Department, Pays) :-
    department(D, Department),
    findall(P, employee(_, _, D, P), Pays).
cost(Department, Sum) :- pay_of(Department, Pays), sum(Pays, Sum).
sum([], 0).
sum([P|Ps], S) :- sum(Ps, Rest), S is P + Rest.

hire(N, Name, Department, Pay) :-
    department(D, Department),
    \+ employee(N, _, _, _),
    insert_tuple(employee(N, Name, D, Pay)).
move(Name, Department) :-
    employee(N, Name, Old, Pay),
    department(New, Department),
    delete_tuple(employee(N, Name, Old, Pay)),
    insert_tuple(employee(N, Name, New, Pay)).
close(Department) :- department(D, Department), delete_tuple(department(D, Department)).

% What must never be: a session with this as its `commit_unless` goal changes nothing if it is so.
wrong :- employee(_, _, D, _), \+ department(D, _).
wrong :- leads(L, _), \+ employee(L, _, _, _).
wrong :- leads(_, M), \+ employee(M, _, _, _).
wrong :- below(N, N).
