# The stricter reading against Lua's own loader (../run_strict.py).
