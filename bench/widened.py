a = np.full((4096, 1024), -7, np.int8)
repeat: z = a.astype(np.int64)
