a = np.full((4096, 1024), 300)
repeat: z = a.astype(np.int8)
