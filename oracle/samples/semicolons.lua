;;; local a <const> = 1; ; local b = a; ; print(a, b);;
