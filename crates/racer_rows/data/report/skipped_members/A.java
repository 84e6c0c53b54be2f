class A { interface I { } static { } }
