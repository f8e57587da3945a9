:- relation(d/2). d(department_a,1). d(department_b,2).
