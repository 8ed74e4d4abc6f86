x = np.full(4, 7)
y = np.full(4, 3)
repeat: z = x + y
