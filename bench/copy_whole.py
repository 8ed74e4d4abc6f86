a = np.full((4096, 1024), 7, TYPE)
repeat: z = a.copy()
