function first(f, ...) return f(...) end
