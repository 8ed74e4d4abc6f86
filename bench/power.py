x = np.full(SIZE, 7, TYPE)
repeat: z = x ** 3
