a = np.full((4096, 1026), 7, TYPE)
repeat: z = a[:, 1:-1].copy()
