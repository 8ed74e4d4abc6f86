a = np.full((1024, 4096), 7, TYPE)
repeat: z = a.T.copy()
