x = np.full(SIZE, 7, TYPE)
y = np.full(SIZE, 3, TYPE)
repeat: z = x << y
