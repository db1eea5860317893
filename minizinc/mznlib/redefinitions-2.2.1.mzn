predicate int_pow_fixed(var int: x, int: y, var int: z) = int_pow(x, y, z);
