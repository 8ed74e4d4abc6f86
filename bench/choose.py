x = np.full(SIZE, 7, TYPE)
y = np.full(SIZE, 3, TYPE)
c = x < y
repeat: z = np.where(c, x, y)
