:- relation(emp/3).
:- relation(dept/2).
:- clauses(bonus/2).
emp(1, ada, 10).   % number, name, department
emp(2, bob, 20).
emp(3, cy, 10).
dept(10, tools).
dept(20, sales).
bonus(N, 5) :- emp(N, _, 10).
colleague(A, B) :- emp(_, A, D), emp(_, B, D), A \== B.
