% Names that differ late, and arguments of each kind, in one relation.
:- relation(p/2).
:- relation(q/1).
p(aaaaaaaab, 1). p(aaaaaaaaa, 1). p(aaaaaaa, 2). p(aaaaaaaa, 0). p(f(1), 1). p(f(0), 2). p(-1, a). p(2305843009213693951, a). p(-2305843009213693952, a). p([], []). p([a], [b]). p('', '').
q(f(x)). q(g(x)). q(f(x, y)). q(longname1(x)). q(longname2(x)). q(longname(x)). q(z). q(zz). q(''). q('Z'). q(10). q(9). q(-10). q([]). q([a]). q({}). q({a}). q(longatom1). q(longatom2). q(longatom).
